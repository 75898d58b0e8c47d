$[ d.mm $]
