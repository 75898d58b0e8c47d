$c wff $.
$[ d/t.mm $]
