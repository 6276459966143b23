" Queries of stars.
if exists('b:current_syntax')
  finish
endif
syntax case match

syntax match starsQueryName '\<\h\w*\>'
syntax match starsQueryClause '\<\(select\|from\|where\|and\|order\|by\|at\)\>'
" A column may have any word, one of a clause included.
syntax match starsQueryColumn '\(\.\_s*\)\@<=\h\w*'
syntax match starsQueryComparison '<=\|>=\|<>\|[=<>]'
syntax match starsQueryNumber '\(-\s*\)\=\<\d\+\>'
syntax match starsQueryBracket '[,;.]'
syntax region starsQueryText start=+'+ skip=+''+ end=+'+
syntax match starsQueryComment '#.*$' contains=@Spell

highlight default link starsQueryName Identifier
highlight default link starsQueryClause Statement
highlight default link starsQueryColumn Type
highlight default link starsQueryComparison Operator
highlight default link starsQueryNumber Number
highlight default link starsQueryBracket Delimiter
highlight default link starsQueryText String
highlight default link starsQueryComment Comment

let b:current_syntax = 'stars_query'
