$c wff |- -> ( ) $.
$v p q $.
wp $f wff p $.
wq $f wff q $.
wi $a wff ( p -> q ) $.
e $e |- p $.
a $a |- q $.
t $p |- q $= wp wq e a $.
