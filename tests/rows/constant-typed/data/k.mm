$c wff |- $.
$v k $.
wk $f wff k $.
ax $a |- k $.
th $p |- k $= ax $.
