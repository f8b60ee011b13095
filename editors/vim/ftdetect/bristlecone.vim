autocmd BufNewFile,BufRead *.bristle setfiletype bristlecone
