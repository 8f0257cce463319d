" Settings for programs of raml.
if exists('b:did_ftplugin')
  finish
endif
let b:did_ftplugin = 1

setlocal commentstring=(*\ %s\ *)
setlocal comments=sr:(*,mb:*,ex:*)
setlocal iskeyword=@,48-57,_,'
setlocal expandtab shiftwidth=2 softtabstop=2
compiler raml

let b:undo_ftplugin = 'setlocal commentstring< comments< iskeyword< expandtab< shiftwidth< softtabstop< makeprg< errorformat<'
