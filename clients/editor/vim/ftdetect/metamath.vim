" Files of Metamath, which vim takes for Objective C++ or nroff.
autocmd BufRead,BufNewFile *.mm set filetype=metamath
