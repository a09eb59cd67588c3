" BTOR2 files, as docs/BTOR2.md has them: ID KEYWORD ARGUMENTS SYMBOL, and comments from a line's first `;`.
if exists("b:current_syntax") | finish | endif

syntax match btor2Symbol /\S\+/ contained
syntax match btor2Argument /-\?[0-9]\+\ze\%(\s\|;\|$\)/ contained nextgroup=btor2Argument,btor2Symbol skipwhite
syntax match btor2Hexadecimal /[0-9A-Fa-f]\+\ze\%(\s\|;\|$\)/ contained nextgroup=btor2Symbol skipwhite
syntax match btor2HexSort /[0-9]\+/ contained nextgroup=btor2Hexadecimal skipwhite
syntax match btor2Bitvec /bitvec\>/ contained nextgroup=btor2Argument skipwhite
syntax match btor2Keyword /\<\%(input\|output\|bad\|init\|next\|state\|zero\|one\|ones\|const\|constd\|not\|neg\|inc\|dec\|redand\|redor\|redxor\|and\|or\|xor\|nand\|nor\|xnor\|add\|sub\|mul\|sll\|srl\|sra\|eq\|neq\|ult\|ulte\|ugt\|ugte\|slt\|slte\|sgt\|sgte\|iff\|implies\|concat\|slice\|uext\|sext\|ite\)\>/ contained nextgroup=btor2Argument,btor2Symbol skipwhite
syntax match btor2Keyword /\<consth\>/ contained nextgroup=btor2HexSort skipwhite
syntax match btor2Keyword /\<sort\>/ contained nextgroup=btor2Bitvec skipwhite
syntax match btor2Unsupported /\<\%(udiv\|sdiv\|urem\|srem\|smod\|rol\|ror\|read\|write\|constraint\|fair\|justice\|uaddo\|saddo\|usubo\|ssubo\|umulo\|smulo\|sdivo\)\>/ contained nextgroup=btor2Argument,btor2Symbol skipwhite
syntax match btor2Id /^\s*[0-9]\+/ nextgroup=btor2Keyword,btor2Unsupported skipwhite
syntax match btor2Comment /;.*$/ containedin=ALL contains=@Spell
syntax region btor2Stimulus matchgroup=btor2Mark start=/^%%\r\?$/ end=/\%$/ contains=btor2Value
syntax match btor2Value /=\zs\%(0x[0-9A-Fa-f]\+\|[0-9]\+\)\ze\%(\s\|$\)/ contained
syntax sync fromstart

highlight default link btor2Symbol Identifier
highlight default link btor2Argument Number
highlight default link btor2Hexadecimal Number
highlight default link btor2HexSort Number
highlight default link btor2Bitvec Type
highlight default link btor2Keyword Statement
highlight default link btor2Unsupported Error
highlight default link btor2Id Label
highlight default link btor2Comment Comment
highlight default link btor2Mark PreProc
highlight default link btor2Value Number

let b:current_syntax = "btor2"
