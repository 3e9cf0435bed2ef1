" scripts/editors writes this file.
autocmd BufNewFile,BufRead *.rgo,*.rg,*.rgd setfiletype rgc
