" Syntax of GP 2 programs. Where two items match at one place, the last one below is taken.
if exists("b:current_syntax")
  finish
endif

syntax match gp2Sign /[][(){},;|#]/
syntax match gp2Operator /=>\|!=\|<=\|>=\|[-=<>+*\/.:!]/
syntax match gp2Word /\<[A-Za-z0-9_]\+\>/
syntax match gp2Procedure /\<[A-Z][A-Za-z0-9_]*\>/
syntax match gp2Rule /\<[a-z][A-Za-z0-9_]*\>\ze\s*(\(\s*[RB]\s*)\)\@!/
syntax match gp2Number /\<[0-9]\+\>/
syntax match gp2Modifier /\w\@1<=([RB])/
syntax match gp2Mark /#\s*\(red\|green\|blue\|grey\|dashed\|any\)\>/
syntax keyword gp2Control if then else try skip fail break
syntax keyword gp2WordOperator not and or
syntax keyword gp2Part interface where
syntax keyword gp2Type int char string atom list
syntax keyword gp2Function edge indeg outdeg length
syntax keyword gp2Constant empty
syntax match gp2String /"[ !#-~]*"/
syntax match gp2Comment /\/\/.*$/
syntax region gp2Comment start=/\/\*/ end=/\*\//

highlight default link gp2Sign Delimiter
highlight default link gp2Operator Operator
highlight default link gp2Word Identifier
highlight default link gp2Procedure Function
highlight default link gp2Rule Function
highlight default link gp2Number Number
highlight default link gp2Modifier StorageClass
highlight default link gp2Mark Special
highlight default link gp2Control Statement
highlight default link gp2WordOperator Operator
highlight default link gp2Part Keyword
highlight default link gp2Type Type
highlight default link gp2Function Function
highlight default link gp2Constant Constant
highlight default link gp2String String
highlight default link gp2Comment Comment

let b:current_syntax = "gp2"
