$[ b.mm $] $[ z.mm $]
