" Ribbit. Written by editors/make.
if exists('b:current_syntax')
  finish
endif
syntax case match
syntax keyword ribbitItem type layout fun
syntax keyword ribbitExpression let in match to
syntax keyword ribbitLayout word split else inline boxed packed
syntax keyword ribbitOperator add sub mul and or xor eq lt
syntax match ribbitConstructor '\<[A-Z][A-Za-z0-9_]*\>'
syntax match ribbitType '\<u\%([1-9]\|[1-5][0-9]\|6[0-4]\)\>'
syntax match ribbitNumber '\<\%(0\|[1-9][0-9]*\)\>'
syntax match ribbitComment '//.*$'
highlight default link ribbitItem Structure
highlight default link ribbitExpression Statement
highlight default link ribbitLayout Label
highlight default link ribbitOperator Operator
highlight default link ribbitConstructor Constant
highlight default link ribbitType Type
highlight default link ribbitNumber Number
highlight default link ribbitComment Comment
let b:current_syntax = 'ribbit'
