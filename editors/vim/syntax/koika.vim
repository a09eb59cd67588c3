" Designs of koika. The tokens are those of docs/LANGUAGE.md; editors/check.sh compares their classes with the lexer's.
if exists("b:current_syntax") | finish | endif

syntax iskeyword @,48-57,_
syntax keyword koikaDeclaration reg input enum struct table host fun rule schedule assert
syntax keyword koikaType bits unit
syntax keyword koikaConditional if else try then
syntax keyword koikaStatement let abort
syntax keyword koikaAccess read0 read1 read2 read3 write0 write1 write2 write3
syntax keyword koikaBuiltin pack unpack update zext sext slt sle sgt sge

" The last of several that match at one place counts.
syntax match koikaError /[!/'%#"?@$\\`]/
syntax match koikaName /[A-Za-z_][A-Za-z0-9_]*/
syntax match koikaNumber /[0-9]\+/
syntax match koikaLiteral /[0-9]\+'\%(d[0-9]\+\|h[0-9A-Fa-f]\+\|b[01]\+\)/
syntax match koikaSymbol /[{}()\[\];:,=.+\-*&|^~<>]/
syntax match koikaSymbol />>>\|<<\|>>\|<=\|>=\|==\|!=\|->\|::\|++/
syntax match koikaComment "//.*$" contains=koikaTodo,@Spell
syntax keyword koikaTodo contained TODO FIXME XXX

" The stimulus, from the line %% to the end.
syntax region koikaStimulus matchgroup=koikaMark start=/^%%\r\?$/ end=/\%$/ contains=koikaInput,koikaValue
syntax match koikaInput /[A-Za-z_][A-Za-z0-9_]*\ze=/ contained
syntax match koikaValue /=\zs\%(0x[0-9A-Fa-f]\+\|[0-9]\+\)/ contained
syntax sync fromstart

highlight default link koikaDeclaration Structure
highlight default link koikaType Type
highlight default link koikaConditional Conditional
highlight default link koikaStatement Statement
highlight default link koikaAccess Special
highlight default link koikaBuiltin Function
highlight default link koikaError Error
highlight default link koikaNumber Number
highlight default link koikaLiteral Number
highlight default link koikaSymbol Operator
highlight default link koikaComment Comment
highlight default link koikaTodo Todo
highlight default link koikaMark PreProc
highlight default link koikaInput Identifier
highlight default link koikaValue Number

let b:current_syntax = "koika"
