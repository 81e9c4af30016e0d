" Vim syntax file
" Language:    session of Pelunavosh (docs/SESSION.md has the rules)
" Use:         :set runtimepath+=FOLDER/share/vim, or copy syntax/ and ftdetect/ to ~/.vim
"
" It goes by fields: a field is highlighted for what it looks like. A command with an unknown word, a number with a sign or a zero in
" front, and a line of more than 256 bytes are marked as errors; tools/explain tells all that is wrong with a line.

if exists("b:current_syntax")
  finish
endif
let s:saved = &cpo
set cpo&vim

syntax case match

" A sender's line behind START, which can name its client too, and the fields of any line.
syntax match fxbookBank "^\s*\zs[A-Z][A-Z0-9]\{2,7}\%(:[A-Z][A-Z0-9]\{2,7}\)\=\>" nextgroup=fxbookUnknown,fxbookCommand skipwhite
syntax match fxbookUnknown "\S\+" contained
syntax keyword fxbookCommand BUY SELL CANCEL REDUCE PULL LINE SHOW BOOK TOTAL SETTLE contained
syntax keyword fxbookLife DAY IOC FOK
syntax match fxbookPair "\<[A-Z]\{3}/[A-Z]\{3}\>"
syntax match fxbookNumber "\%(^\|\s\)\@<=\%(0\|[1-9][0-9]*\)\%($\|\s\)\@="
syntax match fxbookPrice "\%(^\|\s\)\@<=\%(0\|[1-9][0-9]*\)\.[0-9]\{1,6}\%($\|\s\)\@="
" A number with a sign, or with a zero in front, is none.
syntax match fxbookBadNumber "\%(^\|\s\)\@<=\%([-+][0-9.]\+\|0[0-9][0-9.]*\)\%($\|\s\)\@="

" The header. The bank's name stands second there.
syntax match fxbookHeader "^\s*\zs\%(FXBOOK\|BANK\|PAIR\|LINE\|TOTAL\)\>"
syntax match fxbookHeader "^\s*\zsSTART\ze\s*$"

" The declaration of a client.
syntax match fxbookHeader "^\s*\zsCLIENT:\ze\s"

syntax match fxbookComment "^\s*#.*$"

" What stands behind END nothing looks at.
syntax region fxbookBehind matchgroup=fxbookHeader start="^\s*\zsEND\ze\s*$" end="\%$"

" Of a line of more than 256 bytes only the first field is kept.
syntax match fxbookLong "^\s*[^# \t]\%(.*\%>256c\)\@=.*$"

highlight default link fxbookHeader Keyword
highlight default link fxbookBank Identifier
highlight default link fxbookCommand Statement
highlight default link fxbookUnknown Error
highlight default link fxbookLife Constant
highlight default link fxbookPair Type
highlight default link fxbookNumber Number
highlight default link fxbookPrice Float
highlight default link fxbookBadNumber Error
highlight default link fxbookComment Comment
highlight default link fxbookBehind Comment
highlight default link fxbookLong Error

let b:current_syntax = "fxbook"
let &cpo = s:saved
unlet s:saved
