autocmd BufRead,BufNewFile *.rib set filetype=ribbit
