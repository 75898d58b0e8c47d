$[ b.mm $] $[ c.mm $]
