" Derivations of stars, such as the plans that it prints.
if exists('b:current_syntax')
  finish
endif
syntax case match

syntax match starsDerivationNumber '\<\d\+\>'
syntax match starsDerivationBracket '[{},;]'
syntax match starsDerivationStar '\(\<ref\_s\+\)\@<=\h\w*'
syntax keyword starsDerivationNode glue goal ref
syntax keyword starsDerivationPart pushed split
syntax keyword starsDerivationAdded sort ship store
syntax keyword starsDerivationOperator ACCESS_HEAP ACCESS_INDEX GET FILTER SORT STORE SHIP PROBE
syntax keyword starsDerivationOperator JOIN_NL JOIN_MERGE JOIN_HASH
syntax match starsDerivationComment '#.*$' contains=@Spell

highlight default link starsDerivationNumber Number
highlight default link starsDerivationBracket Delimiter
highlight default link starsDerivationStar Function
highlight default link starsDerivationNode Statement
highlight default link starsDerivationPart Keyword
highlight default link starsDerivationAdded StorageClass
highlight default link starsDerivationOperator Special
highlight default link starsDerivationComment Comment

let b:current_syntax = 'stars_derivation'
