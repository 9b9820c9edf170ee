" Syntax of GP 2 host graphs. Where two items match at one place, the last one below is taken.
if exists("b:current_syntax")
  finish
endif

syntax match gp2hostSign /[][(),|<>.:#-]/
syntax match gp2hostWord /\<[A-Za-z0-9_]\+\>/
syntax match gp2hostNumber /-\?\<[0-9]\+\>/
syntax match gp2hostModifier /\w\@1<=(R)/
syntax match gp2hostMark /#\s*\(red\|green\|blue\|grey\|dashed\)\>/
syntax keyword gp2hostConstant empty
syntax match gp2hostString /"[ !#-~]*"/
syntax match gp2hostComment /\/\/.*$/
syntax region gp2hostComment start=/\/\*/ end=/\*\//

highlight default link gp2hostSign Delimiter
highlight default link gp2hostWord Identifier
highlight default link gp2hostNumber Number
highlight default link gp2hostModifier StorageClass
highlight default link gp2hostMark Special
highlight default link gp2hostConstant Constant
highlight default link gp2hostString String
highlight default link gp2hostComment Comment

let b:current_syntax = "gp2host"
