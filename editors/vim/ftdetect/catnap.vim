autocmd BufRead,BufNewFile *.cat setfiletype catnap
