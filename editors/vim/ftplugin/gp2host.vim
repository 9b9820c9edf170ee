" `:Gp2Why` says where and why gp2 refuses the host in the buffer, where g:gp2_program names a program.
command! -buffer -bar Gp2Why call gp2#why()
setlocal commentstring=//\ %s
let b:undo_ftplugin = 'delcommand -buffer Gp2Why | setlocal commentstring<'
