" Made by editors/make: change that script, not this file.
if exists('b:did_ftplugin')
  finish
endif
let b:did_ftplugin = 1
setlocal comments=:; commentstring=;\ %s
compiler ghostriderasm
let b:undo_ftplugin = 'setlocal comments< commentstring< makeprg< errorformat<'
