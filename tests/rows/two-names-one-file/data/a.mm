$[ b.mm $] $[ ./b.mm $]
