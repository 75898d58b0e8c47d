$[ b.mm $]
$[ c.mm $]
