" Sets the program in the buffer in lines, in its canonical form and with its comments. A text that is refused stays as it is,
" and the line that says why is shown. On each save, by a line in ~/.vimrc:
"   autocmd BufWritePre *.gp2 call gp2#format()
" g:gp2_formatter is the command that does it.
function! gp2#format() abort
  let refusal = tempname()
  let made = systemlist(get(g:, 'gp2_formatter', 'gp2-layout') . ' 2>' . shellescape(refusal), getline(1, '$'))
  let failed = v:shell_error
  let said = filereadable(refusal) ? readfile(refusal) : []
  call delete(refusal)
  if failed
    echohl WarningMsg
    echo empty(said) ? 'gp2#format: status ' . failed : said[-1]
    echohl None
  elseif !empty(made) && made !=# getline(1, '$')
    let view = winsaveview()
    call setline(1, made)
    if line('$') > len(made)
      silent execute (len(made) + 1) . ',$delete _'
    endif
    call winrestview(view)
  endif
endfunction

" The command that tells a fault in one line.
function! gp2#why_command() abort
  let program = exists('g:gp2_command') ? 'GP2_PROGRAM=' . shellescape(expand(g:gp2_command)) . ' ' : ''
  return program . get(g:, 'gp2_why', 'gp2-why') . ' fault --short'
endfunction

" The program and the host that it is called with, of which one is the file.
function! gp2#why_files(file) abort
  if &filetype ==# 'gp2host'
    return [shellescape(expand(get(g:, 'gp2_program', ''))), a:file]
  endif
  return exists('g:gp2_host') ? [a:file, shellescape(expand(g:gp2_host))] : [a:file]
endfunction

" The fault of what is in the buffer, saved or not: it becomes the quickfix list, and the cursor goes there.
function! gp2#why() abort
  let copy = tempname()
  call writefile(getline(1, '$'), copy)
  let said = systemlist(gp2#why_command() . ' ' . join(gp2#why_files(shellescape(copy))) . ' 2>&1')
  call delete(copy)
  let faults = []
  for line in said
    let parts = matchlist(line, '^\(.\{-}\):\(\d\+\):\(\d\+\): \(.*\)$')
    if empty(parts)
      call add(faults, {'text': substitute(line, '\V' . escape(copy, '\'), '\=expand("%")', 'g')})
    elseif parts[1] ==# copy
      let column = byteidx(getline(parts[2]), parts[3] - 1) + 1
      call add(faults, {'bufnr': bufnr('%'), 'lnum': parts[2], 'col': max([column, 1]), 'text': parts[4], 'type': 'E'})
    else
      call add(faults, {'filename': parts[1], 'lnum': parts[2], 'col': parts[3], 'text': parts[4], 'type': 'E'})
    endif
  endfor
  call setqflist(faults)
  if empty(faults)
    echo 'no fault'
  else
    cfirst
  endif
endfunction
