" Vim syntax file: objects of pathserve (docs/LANGUAGE.md). Copy editors/vim into ~/.vim, or add it to 'runtimepath'.
if exists("b:current_syntax")
  finish
endif
syntax case ignore

" (a name is no part of a number before it: `5n` is 5 and n; what is defined last comes first)
syntax match pathName "\a\w*"
syntax match pathNumber "\d\+"
syntax match pathSign "[-+=<>:;,.()\[\]]"
syntax match pathKeyword "\%(append\|array\|begin\|const\|count\|else\|end\|entry\|erase\|first\|function\|has\|if\)\w\@!"
syntax match pathKeyword "\%(lookup\|not\|object\|of\|path\|procedure\|queue\|refuse\|store\|table\|take\|then\|var\)\w\@!"
syntax match pathKind "\%(integer\|text\)\w\@!"
syntax region pathText start="'" skip="''" end="'" oneline
syntax region pathComment start="{" end="}"
syntax region pathComment start="(\*" end="\*)"

highlight default link pathName Identifier
highlight default link pathNumber Number
highlight default link pathSign Operator
highlight default link pathKeyword Keyword
highlight default link pathKind Type
highlight default link pathText String
highlight default link pathComment Comment
let b:current_syntax = "pathobject"
