" SPDX-License-Identifier: MIT OR Apache-2.0
" Definitions and proofs (.antt).
if exists("b:current_syntax")
    finish
endif

syntax keyword anttKeyword data record deriving module where open as unfoldable abbrev unfold unfolding ruleset mutual
syntax keyword anttKeyword infix infixl infixr elim let in do
syntax keyword anttInclude use mod pub package
syntax keyword anttUnproved axiom
syntax keyword anttTactic search grind simp omega rw grw cc hlevel assumption first_of arith
syntax keyword anttConstant refl true false tt zero suc pos negsuc
" Types and facts begin with a capital letter; so do constructors.
syntax match anttType /\v<[A-Z][A-Za-z0-9_]*/
syntax match anttType /[ℕℤ]/
syntax match anttOperator /[≡≢≤<≥>→×⊎↔∧∨∀λ∙∘+*|=]\|∷\|++\|&&/
syntax match anttPlace /◌/
syntax match anttNumber /\v<(0x[0-9a-f_]+|0o[0-7_]+|0b[01_]+|[0-9][0-9_]*)>/
syntax region anttString start=/"/ skip=/\\./ end=/"/ oneline
syntax match anttHole /\v\?[a-z_0-9]*/
syntax match anttQuoted /«[^»]*»/
" The name that a line at the margin declares or defines.
syntax match anttName /\v^(pub )?\zs[a-z_][^ (){}.;,@"«»:]*\ze( |$)/ contains=anttKeyword,anttInclude,anttUnproved
syntax match anttComment /\v(^|[ (){}])\zs--.*$/ contains=anttTodo,@Spell
syntax region anttComment start=/{-/ end=/-}/ contains=anttTodo,anttComment,@Spell
syntax keyword anttTodo TODO FIXME contained

highlight default link anttKeyword Keyword
highlight default link anttInclude Include
highlight default link anttUnproved Error
highlight default link anttTactic Function
highlight default link anttConstant Constant
highlight default link anttType Type
highlight default link anttOperator Operator
highlight default link anttPlace Special
highlight default link anttNumber Number
highlight default link anttString String
highlight default link anttHole Todo
highlight default link anttQuoted Identifier
highlight default link anttName Identifier
highlight default link anttComment Comment
highlight default link anttTodo Todo

let b:current_syntax = "antt"
