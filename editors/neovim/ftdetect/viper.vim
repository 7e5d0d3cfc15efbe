autocmd BufRead,BufNewFile *.vpr,*.sil setfiletype viper
