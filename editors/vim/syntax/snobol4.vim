" Syntax of SNOBOL4 decks. Of items that begin at one place the one that stands last here is taken.
if exists("b:current_syntax")
  finish
endif

syntax case match
syntax sync fromstart

" Statements.
syntax match snobol4Bad /[^ ]/
syntax match snobol4Separator /;/
syntax match snobol4Mark "[()<>,=:/+.$@?&|~-]\|\*\%(\%<73c\*\)\?"
syntax match snobol4Integer /[0-9]\%(\%<73c[0-9]\)*/
syntax match snobol4Name /\a\%(\%<73c[A-Za-z0-9._]\)*/
syntax match snobol4Call /\a\%(\%<73c[A-Za-z0-9._]\)*(\@=/
syntax match snobol4Pattern /\%(ABORT\|ARB\|BAL\|FAIL\|FENCE\|REM\|SUCCEED\)\%([A-Za-z0-9._]\@!\|\%73c\)[(<]\@!/
syntax match snobol4Return /(\@1<=\%(RETURN\|FRETURN\|NRETURN\|END\))\@=/
syntax match snobol4Primitive /\%(ANY\|APPLY\|ARBNO\|ARRAY\|BREAK\|CONVERT\|COPY\|DATA\|DATATYPE\|DEFINE\|DETACH\|DIFFER\|DUPL\|EQ\|FENCE\|GE\|GT\|IDENT\|INPUT\)(\@=/
syntax match snobol4Primitive /\%(INTEGER\|ITEM\|LE\|LEN\|LGT\|LT\|NE\|NOTANY\|OUTPUT\|POS\|REMDR\|REPLACE\|RPOS\|RTAB\|SIZE\|SPAN\|TAB\|TABLE\|TRIM\)(\@=/
syntax match snobol4Keyword /&\@1<=\%(ALPHABET\|ANCHOR\|FNCLEVEL\|FULLSCAN\|INPUT\|LASTNO\|MAXLNGTH\|OUTPUT\|RTNTYPE\|STCOUNT\|STFCOUNT\|STLIMIT\|STNO\|TRIM\)\%([A-Za-z0-9._]\@!\|\%73c\)/
syntax match snobol4Goto /\%(:\%( *\)\@>\)\@73<=[SF]\%(\%<73c(\)\@=/
syntax match snobol4Goto /)\@1<=[SF](\@=/

" A literal goes on over a continuation, and ends where another text begins.
syntax region snobol4String start=/'/ end=/\%<73c'/ end=/\n\%([+.*-]\| *$\| \{72}\)\@!/ contains=@snobol4Within
syntax region snobol4String start=/"/ end=/\%<73c"/ end=/\n\%([+.*-]\| *$\| \{72}\)\@!/ contains=@snobol4Within
syntax cluster snobol4Statement contains=snobol4Bad,snobol4Separator,snobol4Mark,snobol4Integer,snobol4Name,snobol4Call
syntax cluster snobol4Statement add=snobol4Pattern,snobol4Return,snobol4Primitive,snobol4Keyword,snobol4Goto,snobol4String
syntax cluster snobol4Within contains=snobol4Comment,snobol4Control,snobol4BadCard,snobol4Continuation,snobol4Past

" Cards.
syntax match snobol4Label /\%(^\|;\)\@1<=\a\%(\%<73c[A-Za-z0-9._]\)*/
syntax match snobol4Continuation /^[+.]/
syntax match snobol4BadCard /^-.*/
syntax match snobol4Control /^-\%(LIST\|UNLIST\|EJECT\|INCLUDE\)\%( \|$\)\@=.*/
syntax match snobol4Comment /^\*.*/

" Nothing behind END is read.
syntax match snobol4After /^.*/ contained
syntax match snobol4After /;.*/ contained
syntax region snobol4Last matchgroup=snobol4End start=/\%(^\|;\)\@1<=END\%([ ;]\|$\|\%73c\)\@=/ end=/\%$/ contains=@snobol4Statement,snobol4After,snobol4Past
syntax match snobol4Past /\%73c.\+/

highlight default link snobol4Bad Error
highlight default link snobol4BadCard Error
highlight default link snobol4Separator Delimiter
highlight default link snobol4Mark Operator
highlight default link snobol4Integer Number
highlight default link snobol4Name Identifier
highlight default link snobol4Call Function
highlight default link snobol4Pattern Constant
highlight default link snobol4Primitive Function
highlight default link snobol4Keyword Special
highlight default link snobol4Goto Statement
highlight default link snobol4Return Statement
highlight default link snobol4String String
highlight default link snobol4Label Label
highlight default link snobol4Continuation PreProc
highlight default link snobol4Control PreProc
highlight default link snobol4Comment Comment
highlight default link snobol4End Statement
highlight default link snobol4After Comment
highlight default link snobol4Past Comment

let b:current_syntax = "snobol4"
