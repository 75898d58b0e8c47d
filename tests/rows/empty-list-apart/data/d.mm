$c wff |- $.
$v x y z $.
wx $f wff x $.
wy $f wff y $.
wz $f wff z $.
${ $d x y $. a1 $a |- x y $. $}
${ b1 $e |- x y $. b2 $a |- x $. $}
e $a wff $.
t $p |- x $= wx e wx e a1 b2 $.
