" Settings of a buffer with HeyVL: two columns of indentation, `:make` by caesar, and `:HeyvlFormat`.
if exists('b:did_ftplugin')
  finish
endif
let b:did_ftplugin = 1

setlocal commentstring=//\ %s comments=s1:/*,mb:*,ex:*/,:// formatoptions-=t formatoptions+=croql
setlocal expandtab shiftwidth=2 softtabstop=2 autoindent smartindent
setlocal suffixesadd=.heyvl
compiler caesar

let s:tool = expand('<sfile>:p:h:h:h:h') . '/tools/format'
let s:format = executable(s:tool) ? shellescape(s:tool) : 'format'

" Lays out the buffer; if it has an error, the buffer stays and the error is shown.
function! s:format_buffer() abort
  let l:lines = systemlist(s:format . ' --breaks -', getline(1, '$'))
  if v:shell_error
    echohl ErrorMsg | echomsg join(l:lines) | echohl None
    return
  endif
  let l:view = winsaveview()
  call setline(1, l:lines)
  silent call deletebufline('%', len(l:lines) + 1, '$')
  call winrestview(l:view)
endfunction
command! -buffer HeyvlFormat call s:format_buffer()

let b:undo_ftplugin = 'setlocal commentstring< comments< formatoptions< expandtab< shiftwidth< softtabstop< autoindent< smartindent<'
      \ . ' suffixesadd< makeprg< errorformat< | delcommand -buffer HeyvlFormat'
