" Words of programs of raml.
if exists('b:current_syntax')
  finish
endif

syntax iskeyword @,48-57,_,'
syntax keyword ramlDeclaration let in
syntax keyword ramlDeclaration fun nextgroup=ramlFunction skipwhite skipempty
syntax keyword ramlConditional if then else match with
syntax keyword ramlTick tick
syntax keyword ramlOperatorWord not div mod
syntax keyword ramlType int bool list tree option
syntax keyword ramlBoolean true false
syntax keyword ramlConstant nil leaf none
syntax keyword ramlConstructor node some
syntax match ramlFunction /\<\l\k*\>/ contained
syntax match ramlCall /\<\l\k*\ze\s*(\%(\*\)\@!/
syntax match ramlNumber /\<\d\+\>/
syntax match ramlOperator /->\|::\|<=\|[=<+*|:-]/
syntax region ramlComment start=/(\*/ end=/\*)/ contains=ramlComment,@Spell
syntax sync fromstart

highlight default link ramlDeclaration Keyword
highlight default link ramlConditional Conditional
highlight default link ramlTick Statement
highlight default link ramlOperatorWord Operator
highlight default link ramlType Type
highlight default link ramlBoolean Boolean
highlight default link ramlConstant Constant
highlight default link ramlConstructor Special
highlight default link ramlFunction Function
highlight default link ramlCall Function
highlight default link ramlNumber Number
highlight default link ramlOperator Operator
highlight default link ramlComment Comment

let b:current_syntax = 'raml'
