autocmd BufRead,BufNewFile *.raml setfiletype raml
