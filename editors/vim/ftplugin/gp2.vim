" `:Gp2Why` says where and why gp2 refuses the program in the buffer, or its run on the host that g:gp2_host names.
command! -buffer -bar Gp2Why call gp2#why()
setlocal commentstring=//\ %s
let b:undo_ftplugin = 'delcommand -buffer Gp2Why | setlocal commentstring<'
