" Vim syntax of Fast. To install it, copy this file to ~/.vim/syntax/fast.vim, and put the line
"   autocmd BufNewFile,BufRead *.fast setfiletype fast
" into ~/.vimrc, behind `syntax on`.

if exists("b:current_syntax")
  finish
endif
scriptencoding utf-8

" Of two matches at one place Vim takes the one that stands last here. So names come first, and keywords behind them.
syntax match fastIllegal /\S/
syntax match fastName /[A-Za-z_][A-Za-z0-9_.]*/
syntax match fastConstructor /[A-Za-z_][A-Za-z0-9_.]*\ze\%((\|\s*\[\)/
syntax match fastDeclared /\%(\<\%(type\|lang\|trans\|def\|tree\)\s\+\)\@<=[A-Za-z_][A-Za-z0-9_.]*/
syntax match fastSort /\%(:\s*\)\@<=\%(Int\|Bool\|String\|int\|bool\|string\)[A-Za-z0-9_.]\@!/
syntax match fastDeclaration /\%(type\|tree\|lang\|trans\|def\)[A-Za-z0-9_.]\@!/
syntax match fastControl /\%(where\|given\|to\)[A-Za-z0-9_.]\@!/
syntax match fastOperation /\%(intersect\|union\|complement\|difference\|minimize\|domain\|compose\|restrict\|apply\)[A-Za-z0-9_.]\@!/
syntax match fastOperation /\%(is-empty\|type-check\|get-witness\|pre-image\|restrict-out\)[A-Za-z0-9_.]\@!/
syntax match fastAssertion /\%(assert-true\|assert-false\)[A-Za-z0-9_.]\@!/
syntax match fastWord /\%(in\|and\|or\|not\)[A-Za-z0-9_.]\@!\|∈/
syntax match fastTruth /\%(true\|false\)[A-Za-z0-9_.]\@!/
syntax match fastNumber /[0-9]\+/
syntax match fastBracket /[(){}\[\],:]/
syntax match fastSign /:=\|->\|==\|!=\|<=\|>=\|[=<>+*%|-]/
syntax region fastText start=/"/ end=/"/ oneline contains=fastEscape,fastWrongEscape
syntax match fastWrongEscape /\\./ contained
syntax match fastEscape /\\\%(["\\nt]\|u{[0-9A-Fa-f]\{1,6}}\)/ contained
syntax match fastComment ,//.*$,

highlight default link fastIllegal Error
highlight default link fastConstructor Structure
highlight default link fastDeclared Identifier
highlight default link fastSort Type
highlight default link fastDeclaration Keyword
highlight default link fastControl Statement
highlight default link fastOperation Function
highlight default link fastAssertion PreProc
highlight default link fastWord Operator
highlight default link fastTruth Boolean
highlight default link fastNumber Number
highlight default link fastSign Operator
highlight default link fastBracket Delimiter
highlight default link fastText String
highlight default link fastWrongEscape Error
highlight default link fastEscape SpecialChar
highlight default link fastComment Comment

let b:current_syntax = "fast"
