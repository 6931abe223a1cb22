" SPDX-License-Identifier: MIT OR Apache-2.0
" Which files are Rattle's.
autocmd BufNewFile,BufRead *.rt setfiletype rattle
autocmd BufNewFile,BufRead *.antt setfiletype antt
