" How a catnap source is edited.
if exists("b:did_ftplugin")
  finish
endif
let b:did_ftplugin = 1

setlocal comments=:// commentstring=//\ %s
setlocal cindent cinoptions=J1 shiftwidth=4 expandtab
compiler catnap
let b:undo_ftplugin = "setlocal comments< commentstring< cindent< cinoptions< shiftwidth< expandtab< makeprg< errorformat<"
