" Made by editors/make: change that script, not this file.
if exists('current_compiler')
  finish
endif
let current_compiler = 'ghostrider'
CompilerSet makeprg=ghostrider\ compile\ %:S\ %:r:S.obj
" an explanation or a warning begins with FILE:LINE:COLUMN; the line of the file that it quotes, indented, is left out
CompilerSet errorformat=%-G\ \ \ \ %.%#,%f:%l:%c:\ %tarning:\ %m,%f:%l:%c:\ %m,%f:%l:%c\\,\ %m
