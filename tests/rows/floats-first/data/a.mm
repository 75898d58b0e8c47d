$c wff |- -> ( ) $.
$v p q $.
wp $f wff p $.
wq $f wff q $.
wi $a wff ( p -> q ) $.
${ e1 $e |- p $. $v r $. wr $f wff r $. a3 $a |- r $. $}
${ h $e |- p $. t $p |- q $= wp wq h a3 $. $}
