autocmd BufRead,BufNewFile *.gp2 setfiletype gp2
autocmd BufRead,BufNewFile *.host setfiletype gp2host
autocmd BufRead,BufNewFile *.trace setfiletype gp2trace
