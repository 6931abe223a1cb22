" SPDX-License-Identifier: MIT OR Apache-2.0
" Rattle (.rt): Rust, with clauses that are coloured as definitions are.
if exists("b:current_syntax")
    finish
endif

runtime! syntax/rust.vim
unlet! b:current_syntax
syntax include @rattleAntt syntax/antt.vim
unlet! b:current_syntax

" requires NAME { .. }, ensures NAME { .. }; braces in a clause belong to it
syntax keyword rattleContract requires ensures nextgroup=rattleClauseName,rattleClause skipwhite
syntax match rattleClauseName /\*\?\k\+/ contained nextgroup=rattleClause skipwhite
syntax region rattleClause matchgroup=rattleBrace start=/{/ end=/}/ contained contains=@rattleAntt,rattleInner
syntax region rattleInner start=/{/ end=/}/ contained transparent contains=@rattleAntt,rattleInner
" ghost use PATH; ghost NAME: { .. }; ghost NAME = { .. };
syntax region rattleGhostUse matchgroup=rattleGhost start=/\<ghost\s\+use\>/ end=/;/ contains=@rattleAntt,rattleInner
syntax match rattleGhost /\<ghost\>\ze\s\+\h\w*\s*[:=]/ nextgroup=rattleGhostName skipwhite
syntax match rattleGhostName /\h\w*/ contained nextgroup=rattleGhostIs skipwhite
syntax match rattleGhostIs /[:=]/ contained nextgroup=rattleClause skipwhite
syntax match rattleProve /\<prove!/

highlight default link rattleContract Statement
highlight default link rattleClauseName Label
highlight default link rattleBrace Delimiter
highlight default link rattleGhost PreProc
highlight default link rattleGhostName Identifier
highlight default link rattleProve Macro

let b:current_syntax = "rattle"
