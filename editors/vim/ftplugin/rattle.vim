" SPDX-License-Identifier: MIT OR Apache-2.0
" How .rt files are edited.
if exists("b:did_ftplugin")
    finish
endif
let b:did_ftplugin = 1
let b:undo_ftplugin = "setlocal comments< commentstring< expandtab< shiftwidth< softtabstop< textwidth<"
setlocal comments=:///,://!,:// commentstring=//\ %s
setlocal expandtab shiftwidth=4 softtabstop=4 textwidth=110
