" Comments of Viper, and the server where this is Neovim.
if exists('b:did_ftplugin') | finish | endif
let b:did_ftplugin = 1
setlocal comments=sO:*\ -,mO:*\ \ ,exO:*/,s1:/*,mb:*,ex:*/,:// commentstring=//\ %s iskeyword+=$,' shiftwidth=2 expandtab
if has('nvim')
  lua require('remduska').start()
endif
