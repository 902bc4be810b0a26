" the words of the notation (docs/NOTATION.md)
if exists("b:current_syntax")
  finish
endif
syntax match dwComment "--.*$"
syntax keyword dwKeyword fun fix let in type edition table
syntax keyword dwPart zero one reg and or xor inv
syntax match dwNumber "\<[0-9]\+\>"
syntax match dwSign "->\|-o\>\|[*=:.,+^×→⊸λ]"
syntax match dwDefinition "\<[A-Za-z_][A-Za-z0-9_']*\ze\s*\(\[[^]]*\]\)\=\s*\({[^}]*}\)\=\s*="
syntax match dwKeyword "\<use\ze\s*\""
syntax match dwFile "\"[^\"]*\""
highlight default link dwComment Comment
highlight default link dwKeyword Keyword
highlight default link dwPart Constant
highlight default link dwNumber Type
highlight default link dwFile String
highlight default link dwSign Operator
highlight default link dwDefinition Function
let b:current_syntax = "deltawobble"
