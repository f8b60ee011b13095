" Vim syntax file
" Language: Bristlecone

if exists("b:current_syntax")
  finish
endif

syntax keyword bristleDeclaration class flag tag tagtype task
syntax keyword bristleStatement assert else if print return taskexit while
syntax keyword bristleClause add and clear in or with
syntax keyword bristleOperator length new
syntax keyword bristleType bool int void
syntax keyword bristleBoolean false true
syntax keyword bristleConstant null this

syntax match bristleNumber "\<[0-9]\+\>"
syntax match bristleEscape "\\[nt\"\\]" contained
syntax match bristleBadEscape "\\[^nt\"\\]" contained
syntax region bristleText start=+"+ skip=+\\.+ end=+"+ end=+$+ contains=bristleEscape,bristleBadEscape oneline
syntax match bristleComment "//.*$"
syntax region bristleComment start="/\*" end="\*/"

highlight default link bristleDeclaration Structure
highlight default link bristleStatement Statement
highlight default link bristleClause Keyword
highlight default link bristleOperator Operator
highlight default link bristleType Type
highlight default link bristleBoolean Boolean
highlight default link bristleConstant Constant
highlight default link bristleNumber Number
highlight default link bristleText String
highlight default link bristleEscape SpecialChar
highlight default link bristleBadEscape Error
highlight default link bristleComment Comment

let b:current_syntax = "bristlecone"
