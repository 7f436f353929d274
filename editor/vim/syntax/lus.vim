" Vim syntax file
" Language: programs for ltta (*.lus)
" Copy the folder editor/vim into ~/.vim, or add it to 'runtimepath'.

if exists("b:current_syntax")
  finish
endif

syn case match

" Operators are tried before comments are, and of two matches at one place the later rule wins.
syn match lusOperator "[-+*=<>]"
syn match lusOperator "<=\|>=\|<>\|=>\|->"
syn match lusNumber "\<\d\+\>"
syn match lusFunction "\<\h\w*\ze\_s*("
syn match lusNodeName "\<\h\w*\>" contained
syn match lusComment "--.*$" contains=lusTodo,@Spell
syn keyword lusTodo contained TODO FIXME XXX

syn keyword lusStructure node nextgroup=lusNodeName skipwhite skipempty
syn keyword lusStructure returns var let tel
syn keyword lusType int bool
syn keyword lusBoolean true false
syn keyword lusConditional if then else
syn keyword lusStream fby when merge
syn keyword lusWordOperator not and or xor div mod

hi def link lusOperator Operator
hi def link lusNumber Number
hi def link lusFunction Function
hi def link lusNodeName Function
hi def link lusComment Comment
hi def link lusTodo Todo
hi def link lusStructure Structure
hi def link lusType Type
hi def link lusBoolean Boolean
hi def link lusConditional Conditional
hi def link lusStream Statement
hi def link lusWordOperator Operator

let b:current_syntax = "lus"
