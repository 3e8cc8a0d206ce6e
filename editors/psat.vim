" Vim syntax file: problem texts of psat, versions 1 and 2 (docs/problem-text.md).
" Install: copy this file to ~/.vim/syntax/psat.vim, and ftdetect/psat.vim to ~/.vim/ftdetect/psat.vim.
if exists("b:current_syntax")
  finish
endif
syn case match
syn iskeyword a-z,A-Z,48-57,_

" What begins no token stands first: each later match goes before an earlier one.
syn match psatError "[^ \t\r]"
syn match psatName "\<[A-Za-z]\k*\>"
syn match psatError "\<[A-Za-z]\k\{32,}\>"
" (a coefficient may stand right before its `P`)
syn match psatNumber "\<\d\+\%(P\=\>\)\@="
syn match psatNumber "\<\d\+/\d\+\%(P\=\>\)\@="
syn match psatNumber "\<\d\+\.\d\{1,6}\%(P\=\>\)\@="
syn match psatError "\<\d\+\.\d\{7,}\>"
syn match psatError "\<\d\+\%(P\>\)\@![A-Za-z_]\k*\>"
syn match psatProbability "\d\@1<=P\>"
syn match psatDelimiter "[()\[\],;]"
syn match psatOperator "<->\|->\|>=\|<=\|[-+!&|=]"
syn match psatError "&&\|||\|=>\|==\|++\|--\|<->\@!"
syn match psatComment "#.*$" contains=psatTodo,@Spell
syn keyword psatTodo TODO FIXME XXX contained

syn keyword psatStatement psat query end
syn keyword psatProbability P
syn keyword psatKeyword given in
syn keyword psatBoolean true false

hi def link psatStatement Statement
hi def link psatProbability Function
hi def link psatKeyword Keyword
hi def link psatBoolean Boolean
hi def link psatName Identifier
hi def link psatNumber Number
hi def link psatOperator Operator
hi def link psatDelimiter Delimiter
hi def link psatComment Comment
hi def link psatTodo Todo
hi def link psatError Error

let b:current_syntax = "psat"
