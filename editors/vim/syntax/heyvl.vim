" Syntax of HeyVL, by the tokens of docs/LANGUAGE.md.
if exists('b:current_syntax')
  finish
endif
syntax case match
syntax iskeyword @,48-57,_

" A byte at which no token begins (error 1). Later groups take precedence over it.
syntax match heyvlError /[^[:space:]]/
syntax match heyvlIdentifier /\<\h\w*/
syntax match heyvlNumber /\<\d\+\%(\.\d\+\)\=/
syntax match heyvlDelimiter /[][(){},:;.]/
syntax match heyvlOperator /[-=<>+*!~?/]\|->\|&&\|||/
syntax match heyvlOperator /\\\%(cap\|cup\)\>/
syntax match heyvlConstant /\\infty\>/
syntax match heyvlCall /\<\h\w*\ze\s*(/
syntax match heyvlAnnotation /@\s*\h\w*/

syntax keyword heyvlStructure proc coproc nextgroup=heyvlName skipwhite skipempty
syntax match heyvlName /\<\h\w*/ contained
syntax keyword heyvlKeyword pre post var
syntax keyword heyvlConditional if else
syntax keyword heyvlRepeat while
syntax keyword heyvlStatement assert assume coassert coassume havoc cohavoc validate covalidate reward tick
syntax keyword heyvlFunction ite flip unif choose sup inf
syntax keyword heyvlType Bool Int UInt UReal EUReal Real
syntax keyword heyvlBoolean true false

syntax keyword heyvlTodo TODO FIXME XXX contained
syntax match heyvlComment /\/\/.*/ contains=heyvlTodo,@Spell
syntax region heyvlComment start=/\/\*/ end=/\*\// contains=heyvlTodo,@Spell
syntax sync ccomment heyvlComment

highlight default link heyvlError Error
highlight default link heyvlNumber Number
highlight default link heyvlDelimiter Delimiter
highlight default link heyvlOperator Operator
highlight default link heyvlConstant Constant
highlight default link heyvlCall Function
highlight default link heyvlName Function
highlight default link heyvlAnnotation PreProc
highlight default link heyvlStructure Structure
highlight default link heyvlKeyword Keyword
highlight default link heyvlConditional Conditional
highlight default link heyvlRepeat Repeat
highlight default link heyvlStatement Statement
highlight default link heyvlFunction Special
highlight default link heyvlType Type
highlight default link heyvlBoolean Boolean
highlight default link heyvlTodo Todo
highlight default link heyvlComment Comment

let b:current_syntax = 'heyvl'
