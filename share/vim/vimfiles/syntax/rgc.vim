" Outlines, texts and derivations of rgc. scripts/editors writes this file.
if exists('b:current_syntax')
  finish
endif
syntax case match
syntax keyword rgcSection words fixed show pre rely guar post part begin end line from basic seq loop conseq at let invariant owns
syntax keyword rgcStatement skip await do if then else while atomic for
syntax keyword rgcOperator not and or implies iff inv band bor bxor shl shr unchanged keeps all some sum
syntax keyword rgcConstant true false
syntax match rgcSection /\<aux\ze\s\+\h/
syntax match rgcSection /\<interrupts\ze\s\+\h/
syntax match rgcSection /\<use\ze\s*\"/
syntax match rgcOperator /\h\w*\s\+\zsin\ze\s/
syntax match rgcOperator /\s\zs\%(but\|mod\)\ze\s/
syntax match rgcSign /:=\|\.\.\|!=\|<=\|>=\|[-+=<>]/
syntax match rgcNumber /\<\%(0x[0-9A-Fa-f_]\+\|0b[01_]\+\|\d[0-9_]*\)\>/
syntax match rgcFile /\"[^\"]*\"/
syntax match rgcAssertion /[{}]/
syntax match rgcComment /#.*$/ contains=@Spell
highlight default link rgcSection Keyword
highlight default link rgcStatement Statement
highlight default link rgcOperator Operator
highlight default link rgcConstant Boolean
highlight default link rgcNumber Number
highlight default link rgcComment Comment
highlight default link rgcSign Operator
highlight default link rgcAssertion PreProc
highlight default link rgcFile String
let b:current_syntax = 'rgc'
