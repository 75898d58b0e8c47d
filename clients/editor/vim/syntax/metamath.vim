" Colours for Metamath: comments, keywords, labels, and proofs.
if exists('b:current_syntax')
  finish
endif
" A keyword is a word by itself.
syntax match metamathLabel /\S\+\ze\_s\+\$[aefp]\_s/
syntax match metamathKeyword /\(^\|\s\)\@<=\$[cvdfeap.{}]\(\s\|$\)\@=/
syntax region metamathInclusion matchgroup=metamathKeyword start=/\(^\|\s\)\@<=\$\[\_s\@=/ end=/\$\]\_s\@=/
syntax region metamathProof matchgroup=metamathKeyword start=/\(^\|\s\)\@<=\$=\_s\@=/ end=/\(^\|\s\)\@<=\$\.\(\s\|$\)\@=/ contains=metamathComment,metamathUnknown,metamathList
syntax region metamathList contained matchgroup=metamathKeyword start=/\(^\|\s\)\@<=(\_s\@=/ end=/\(^\|\s\)\@<=)\(\s\|$\)\@=/ contains=metamathComment
syntax match metamathUnknown contained /?/
syntax region metamathComment start=/\(^\|\s\)\@<=\$(\(\s\|$\)\@=/ end=/\(^\|\s\)\@<=\$)\(\s\|$\)\@=/ contains=metamathReference,@Spell
syntax match metamathReference contained /\~\s\+\S\+/

highlight default link metamathLabel Function
highlight default link metamathKeyword Keyword
highlight default link metamathInclusion String
highlight default link metamathProof Constant
highlight default link metamathList Identifier
highlight default link metamathUnknown Todo
highlight default link metamathComment Comment
highlight default link metamathReference Underlined
let b:current_syntax = 'metamath'
