" Words of Metamath are parted by white space alone.
setlocal iskeyword=33-126
setlocal commentstring=$(\ %s\ $)
