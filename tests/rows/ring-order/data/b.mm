$[ c.mm $] $c x y $.
$[ a.mm $] $c x $.
