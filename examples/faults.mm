$( Statements at fault are reported with their places; the rest is verified against the sound ones alone. $)
$c wff |- $.
${ $c k $. $}
$v p $.
wp $f wff p $.
ax $a |- p $.
ax $a |- q $.
t $p |- p $= wp ax $.
