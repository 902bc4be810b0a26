" :make asks for the sheet, and the quickfix list holds the refusal's line and column
if exists("b:did_ftplugin")
  finish
endif
let b:did_ftplugin = 1
setlocal commentstring=--\ %s comments=:-- expandtab shiftwidth=2
setlocal makeprg=deltawobble\ make\ -o\ /dev/null\ %:S
setlocal errorformat=%f:%l:%c:\ %m,%-G%.%#
let b:undo_ftplugin = "setlocal commentstring< comments< expandtab< shiftwidth< makeprg< errorformat<"
