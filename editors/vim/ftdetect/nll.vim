autocmd BufRead,BufNewFile *.nll setfiletype nll
