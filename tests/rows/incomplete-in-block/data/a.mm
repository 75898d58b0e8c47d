$c wff |- -> ( ) $.
$v p q $.
wp $f wff p $.
wq $f wff q $.
wi $a wff ( p -> q ) $.
${ h $e |- p $.
t $p |- p $= ? $. $}
