" Decks of SNOBOL4: columns 1 to 72 of a card are read.
if exists("b:did_ftplugin")
  finish
endif
let b:did_ftplugin = 1

setlocal comments=:* commentstring=*%s
setlocal iskeyword=@,48-57,.,_
setlocal expandtab textwidth=0
if exists("+colorcolumn")
  setlocal colorcolumn=73
endif
let b:undo_ftplugin = "setlocal comments< commentstring< iskeyword< expandtab< textwidth<"
      \ . (exists("+colorcolumn") ? " colorcolumn<" : "")
