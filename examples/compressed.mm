$( Compressed proofs: one with a part that is saved by Z and used again, and one that is not finished. $)
$c wff -> ( ) $.
$v p q $.
wp $f wff p $.
wq $f wff q $.
wi $a wff ( p -> q ) $.
id $p wff ( ( p -> p ) -> ( p -> p ) ) $= ( wi ) AABZCB $.
more $p wff ( p -> ( p -> p ) ) $= ( wi ) A? $.
