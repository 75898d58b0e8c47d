$c wff |- -> ( ) $.
$v p q r $.
wp $f wff p $.
wq $f wff q $.
wr $f wff r $.
wi $a wff ( p -> q ) $.
${ mi $e |- p $. ma $e |- ( p -> q ) $. mp $a |- q $. $}
ax1 $a |- ( p -> ( q -> p ) ) $.
${ once.1 $e |- p $. once $p |- ( q -> p ) $= wp wq wp wi once.1 wp wq ax1 mp $. $}
${ twice.1 $e |- p $. twice $p |- ( r -> ( q -> p ) ) $= wq wp wi wr wp wq twice.1 once once $. $}
