" `:compiler caesar`, then `:make`: verifies the file, and lists each place that is reported: errors, what is not verified or unknown at the
" procedure's name or the loop, a product at `nonlinear at L:C`, and a statement at `valid (L:C ..)`.
if exists('g:current_compiler')
  finish
endif
let g:current_compiler = 'caesar'
if exists(':CompilerSet') != 2
  command -nargs=* CompilerSet setlocal <args>
endif

" The tool beside this folder, else the one on PATH, else the program alone, whose report has places of errors only.
let s:tool = expand('<sfile>:p:h:h:h:h') . '/tools/verify-all'
if executable(s:tool)
  let s:command = shellescape(s:tool) . ' -- %:S'
else
  let s:command = executable('verify-all') ? 'verify-all -- %:S' : 'caesar verify %:S'
endif

let s:formats = [
      \ '%-G%.%#: verified', '%-G%.%#: ranked', '%-G%.%#: no body',
      \ '%W%f:%*\d:%*\d: %m at %l:%c',
      \ '%W%f:%*\d:%*\d: %m (%l:%c is no program statement)',
      \ '%E%f:%l:%c: %\%%(fault %\|%.%#: not %\)%\@=%m',
      \ '%W%f:%l:%c: %m',
      \ '%E%l:%c: %m',
      \ '%-G%.%#',
      \ ]
execute 'CompilerSet makeprg=' . escape(s:command, ' \|"')
execute 'CompilerSet errorformat=' . escape(join(s:formats, ','), ' \|"')
