" The report of mmkeep as vim's list of places. With this folder's parent in 'runtimepath':
"   :compiler mmkeep   and then   :make   in the folder of the database, with the top file as the current one;
" or, of a report that was written to a file,   :cfile REPORT
if exists('current_compiler')
  finish
endif
let current_compiler = 'mmkeep'
CompilerSet makeprg=mmkeep\ verify\ %:S
CompilerSet errorformat=%+Efault\ %f:%l:%c\ %.%#,%+Ewrong\ %\\S%#\ %f:%l:%c\ %.%#,%+Wincomplete\ %\\S%#\ %f:%l:%c,%+Emmkeep:\ %f:%l:%c\ %.%#,%-Gaxioms\ %.%#,%-G%.%#
