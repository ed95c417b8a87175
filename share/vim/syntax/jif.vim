" Vim syntax file
" Language: the programs of jifsplit, as docs/LANGUAGE.md has their tokens
" Each keyword, number and comment is marked exactly where jiftokens sees one.

if exists("b:current_syntax")
  finish
endif

syntax case match
syntax iskeyword a-z,A-Z,48-57,_

syntax keyword jifType int void
syntax keyword jifStatement return
syntax keyword jifConditional if else
syntax keyword jifRepeat while
syntax keyword jifAuthority where authority
syntax keyword jifRelease declassify endorse
syntax match jifNumber "\%#=1[A-Za-z0-9_]\@1<![0-9]\+[A-Za-z0-9_]\@!"
syntax match jifComment "//.*$"
syntax region jifComment start="/\*" end="\*/"

" A comment is looked for from the first line on, however long it is.
syntax sync fromstart

highlight default link jifType Type
highlight default link jifStatement Statement
highlight default link jifConditional Conditional
highlight default link jifRepeat Repeat
highlight default link jifAuthority Keyword
highlight default link jifRelease Special
highlight default link jifNumber Number
highlight default link jifComment Comment

let b:current_syntax = "jif"
