x $c
