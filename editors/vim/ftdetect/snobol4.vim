autocmd BufRead,BufNewFile *.sno setfiletype snobol4
