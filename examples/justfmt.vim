" Formats justfiles when they are written, with `justfiles` on PATH. For Vim 8.2 or later: copy this file
" to ~/.vim/plugin, or source it in vimrc.
"
" Only the lines that differ are replaced, so marks and the cursors of all windows stay at their lines. A
" rejected justfile is written as it is, and its error is shown after Vim's own message: line and column
" first, cut off at the width of the screen. Where Vim then ends, as after `:wq`, it waits for ENTER.
" A file with CRLF is written with LF.

" the error of the command that is being executed, if a justfile was rejected
let s:error = ''

function! s:Format() abort
  autocmd! justfmt BufWritePost <buffer>
  let command = 'justfiles --diff --name ' . shellescape(expand('<afile>')) . ' -'
  let diff = systemlist(command, getline(1, '$') + [''])
  if v:shell_error > 1
    call s:Reject(matchstr(get(diff, 1, ''), ':\zs\d\+:\d\+$'), get(diff, 0, 'justfiles failed'))
    return
  endif
  setlocal fileformat=unix
  let [line, removed] = [0, 0]
  for change in diff[2:] + [' ']
    if change[0] ==# '-'
      let removed += 1
    elseif change[0] ==# '+' && removed
      call setline(line, change[1:])
      let [line, removed] += [1, -1]
    elseif change[0] ==# '+'
      call append(line - 1, change[1:])
      let line += 1
    elseif change[0] =~# '[ @]'
      call s:Delete(line, removed)
      let start = matchlist(change, '^@@ .* +\(\d\+\),\(\d\+\)')
      let [line, removed] = [empty(start) ? line + 1 : start[1] + !start[2], 0]
    endif
  endfor
endfunction

" Deletes lines. The cursor stays at its line; `deletebufline` would move those of other windows twice.
function! s:Delete(first, count) abort
  if a:count == 0
    return
  endif
  let view = winsaveview()
  let folds = &l:foldenable
  setlocal nofoldenable
  execute 'silent keepjumps' a:first . 'delete _' a:count
  let &l:foldenable = folds
  let view.lnum -= max([0, min([view.lnum - a:first, a:count])])
  let view.topline -= max([0, min([view.topline - a:first, a:count])])
  call winrestview(view)
endfunction

function! s:Reject(place, error) abort
  let s:error = trim(a:place . ' ' . a:error)
  while strdisplaywidth(s:error) > &columns - 12
    let s:error = strcharpart(s:error, 0, strchars(s:error) - 1)
  endwhile
  autocmd justfmt BufWritePost <buffer> ++once call s:Tell()
  autocmd justfmt SafeState * ++once let s:error = ''
endfunction

function! s:Tell() abort
  redraw
  echohl ErrorMsg
  echomsg s:error
  echohl None
endfunction

function! s:TellAtExit() abort
  if s:error !=# '' && mode() ==# 'n'
    redraw
    echohl ErrorMsg
    call input(s:error . ' (ENTER)')
    echohl None
  endif
endfunction

augroup justfmt
  autocmd!
  autocmd BufWritePre * if expand('<afile>:t') =~? '^\.\?justfile$\|\.just$' | call s:Format() | endif
  autocmd ExitPre * call s:TellAtExit()
augroup END
