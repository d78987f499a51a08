autocmd BufRead,BufNewFile *.heyvl setfiletype heyvl
