$( The theorem t needs x and z to be kept apart: a1 requires it of what is put for its x and y. z is not
   mandatory for t itself. Without the $d of its block the report has the line `wrong t`. $)
$c wff |- $.
$v x y z $.
wx $f wff x $.
wy $f wff y $.
wz $f wff z $.
${ $d x y $. a1 $a |- x y $. $}
${ b1 $e |- x y $. b2 $a |- x $. $}
${ $d x z $. t $p |- x $= wx wz wx wz a1 b2 $. $}
