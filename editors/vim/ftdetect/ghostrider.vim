" Made by editors/make: change that script, not this file.
autocmd BufRead,BufNewFile *.gr set filetype=ghostrider
" Other assemblers use .asm too, so a text is ours if its first line that isn't a comment is .object. Vim has loaded
" its own settings for .asm by then, and has to load these instead.
autocmd BufRead *.asm if matchstr(getline(1, 200), '\v^[ \t]*[^ \t;]') =~# '\v^[ \t]*\.object[ \t]'
      \ | unlet! b:did_ftplugin | set filetype=ghostriderasm | endif
