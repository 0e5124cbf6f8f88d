" Vim syntax file for Comfusy: sources (*.cf), compiled programs (*.target) and steps (*.steps).
if exists('b:current_syntax')
  finish
endif

syntax keyword comfusyKeyword def const let in if then else choose given where minimise maximise match with
syntax keyword comfusyBase int bool set
syntax keyword comfusyConstant true false
syntax keyword comfusyOperator union inter diff subset divides
syntax keyword comfusyFunction card div mod abs min max
syntax keyword comfusyTarget solve arm need give slice fresh neg not

syntax match comfusyError /[^ \t\r]/
syntax match comfusyName /\<[A-Za-z_][0-9A-Za-z_]*\>/
syntax match comfusyNumber /[0-9]\+/
syntax match comfusySign /==>\|&&\|||\|==\|!=\|<=\|>=\|[=<>!+*-]/
syntax match comfusyPunctuation /[(){}\[\],:;]/
syntax match comfusyComment /#.*$/ contains=@Spell

highlight default link comfusyKeyword Keyword
highlight default link comfusyBase Type
highlight default link comfusyConstant Constant
highlight default link comfusyOperator Operator
highlight default link comfusyFunction Function
highlight default link comfusyTarget Special
highlight default link comfusyNumber Number
highlight default link comfusySign Operator
highlight default link comfusyPunctuation Delimiter
highlight default link comfusyComment Comment
highlight default link comfusyError Error

let b:current_syntax = 'comfusy'
