autocmd BufRead,BufNewFile *.sdv setfiletype sdv
