$( Formulas, and the rule that an implication and what it is from give what it is to. $)
$c wff |- -> ( ) $.
$v p q $.
wp $f wff p $.
wq $f wff q $.
wi $a wff ( p -> q ) $.
${
  mi $e |- p $.
  ma $e |- ( p -> q ) $.
  mp $a |- q $.
$}
