$( The file to begin with: run `mmkeep verify top.mm` in this folder. $)
$[ logic.mm $]
$[ twice.mm $]
last $p wff ( q -> p ) $= wq wp wi $.
