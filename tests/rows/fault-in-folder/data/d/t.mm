$c k $.

$v a$b $.
