" Syntax colouring of scripts of pooma. tools/editors/make writes this file.
if exists('b:current_syntax')
  finish
endif
syntax keyword poomaDeclaration layout brick array field stencil scalar dynamic
syntax keyword poomaStatement print block repeat end create destroy when script
syntax keyword poomaAttribute blocks cuts internal external on faces lower upper backfill shiftup
syntax keyword poomaFace constant periodic reflect antireflect extrapolate
syntax keyword poomaFunction index where min max abs sum all any count bitand bitor
syntax match poomaNumber '\<\d\+\>'
syntax match poomaSign '[-+*/%<>=!&|@]'
syntax match poomaComment '#.*$'
highlight default link poomaDeclaration Type
highlight default link poomaStatement Statement
highlight default link poomaAttribute StorageClass
highlight default link poomaFace Constant
highlight default link poomaFunction Function
highlight default link poomaNumber Number
highlight default link poomaSign Operator
highlight default link poomaComment Comment
let b:current_syntax = 'pooma'
