" sheets in the notation (docs/NOTATION.md)
autocmd BufNewFile,BufRead *.dw setfiletype deltawobble
