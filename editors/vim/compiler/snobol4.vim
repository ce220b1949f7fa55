" SNOBOL4 decks: :make checks the deck by snobol, and its messages are the list of errors.

if exists('current_compiler')
  finish
endif
let current_compiler = 'snobol4'

CompilerSet makeprg=snobol\ check\ %:S
CompilerSet errorformat=%f:%l:%c:\ %trror\ %m,%f:%l:%c:\ %tarning\ %m,%f:%l:%c:\ %tote\ %m
CompilerSet errorformat+=%f:%l:\ %trror\ %m,%f:%l:\ %tarning\ %m,%f:%l:\ %tote\ %m
CompilerSet errorformat+=%f:\ %trror\ %m
