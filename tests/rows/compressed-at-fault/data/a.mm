$c wff |- -> ( ) $.
$v p q $.
wp $f wff p $.
wq $f wff q $.
wi $a wff ( p -> q ) $.
a $a |- r $.
t $p |- r $= ( wp ) A $.
