" Syntax of GP 2 traces, with the printed graph or `fail` behind them.
if exists("b:current_syntax")
  finish
endif

runtime! syntax/gp2host.vim
unlet b:current_syntax

syntax match gp2traceHead /^gp2-trace [12]$/
syntax match gp2traceItem /^\(turn\|step\|back\|end\|fail\)\>/
syntax keyword gp2tracePart nodes edges
syntax match gp2traceTurned /\~/

highlight default link gp2traceHead Keyword
highlight default link gp2traceItem Statement
highlight default link gp2tracePart Type
highlight default link gp2traceTurned Operator

let b:current_syntax = "gp2trace"
