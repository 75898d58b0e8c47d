$( It needs the formulas too; the second inclusion of a file gives nothing. $)
$[ logic.mm $]
${
  t1 $e |- p $.
  t2 $e |- ( p -> ( p -> q ) ) $.
  twice $p |- q $= ( wi mp ) ABCAABECDFF $.
$}
