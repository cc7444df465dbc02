" Colours of a catnap source. docs/LANGUAGE.md has the language.
if exists("b:current_syntax")
  finish
endif

syntax case match
syntax keyword catnapItem task event degrade start
syntax keyword catnapTiming every offset spacing deadline
syntax keyword catnapType int bool
syntax keyword catnapControl if else while repeat
syntax keyword catnapStatement out post
syntax keyword catnapPayload payload
syntax keyword catnapBool true false
syntax match catnapNumber "\<\d\+\>"
syntax match catnapOperator "&&\|||\|[=!<>]=\|[-+*/%!<>=]"
syntax match catnapName "\%(\<\%(task\|event\)\s\+\)\@<=\h\w*"
" a name has at most 31 bytes
syntax match catnapTooLong "\<\h\w\{31,}\>"
syntax match catnapComment "//.*$" contains=catnapTodo
syntax keyword catnapTodo TODO FIXME contained
syntax region catnapBlock start="{" end="}" transparent fold

highlight default link catnapItem Structure
highlight default link catnapTiming Keyword
highlight default link catnapType Type
highlight default link catnapControl Conditional
highlight default link catnapStatement Statement
highlight default link catnapPayload Special
highlight default link catnapBool Boolean
highlight default link catnapNumber Number
highlight default link catnapOperator Operator
highlight default link catnapName Function
highlight default link catnapTooLong Error
highlight default link catnapComment Comment
highlight default link catnapTodo Todo

let b:current_syntax = "catnap"
