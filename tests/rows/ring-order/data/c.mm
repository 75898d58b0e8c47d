$[ a.mm $] $[ b.mm $] $c y $.
$[ c.mm $] $c z z $.
