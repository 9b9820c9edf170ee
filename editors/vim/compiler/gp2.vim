" After `:compiler gp2`, `:make` goes to the fault of the program in the buffer, with its column and what is wrong there: that of
" the program alone, or of its run where g:gp2_host names a host. In a host, where g:gp2_program names a program, it is the
" host's fault that is gone to. g:gp2_why is the command that tells it, and g:gp2_command the program gp2.
if exists('current_compiler')
  finish
endif
let current_compiler = 'gp2'
let s:words = [gp2#why_command()] + gp2#why_files('%:S')
execute 'CompilerSet makeprg=' . escape(join(s:words), ' \|"')
CompilerSet errorformat=%f:%l:%c:\ %m
