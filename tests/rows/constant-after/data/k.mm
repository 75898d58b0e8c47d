$c wff |- $.
$v k $.
ax $a |- k $.
th $p |- k $= ax $.
