" Highlighting of grammars (*.otp) for Vim. Put this file into ~/.vim/syntax/ and the line
"     autocmd BufRead,BufNewFile *.otp setfiletype otp
" into ~/.vimrc.
if exists("b:current_syntax")
  finish
endif
syntax match otpComment ";.*$" contains=otpSound
syntax match otpSound "\<sound\>" contained
syntax match otpHeader "^\s*otp\s\+1\>"
syntax match otpKeyword "^\s*\(tier\|letter\|constraint\)\>" nextgroup=otpName skipwhite
syntax match otpName "[A-Za-z0-9]\w*" contained
syntax match otpRole "\<\(input\|overt\|hidden\)\>\ze\s*\(;.*\)\?\r\?$"
syntax match otpOperator "->\|#\|="
syntax match otpEdge "[][]"
syntax keyword otpJoin and or
syntax match otpBad "[^A-Za-z0-9_\[\]=# \t>;\r-]\|->\@!\|-\@1<!>"
highlight default link otpComment Comment
highlight default link otpSound Special
highlight default link otpHeader PreProc
highlight default link otpKeyword Keyword
highlight default link otpName Identifier
highlight default link otpRole Type
highlight default link otpOperator Operator
highlight default link otpEdge Delimiter
highlight default link otpJoin Conditional
highlight default link otpBad Error
let b:current_syntax = "otp"
