" Files of the language of jifsplit.
autocmd BufRead,BufNewFile *.jif setfiletype jif
