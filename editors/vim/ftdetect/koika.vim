autocmd BufRead,BufNewFile *.koika setfiletype koika
autocmd BufRead,BufNewFile *.btor2,*.btor setfiletype btor2
