" Rule files of stars.
if exists('b:current_syntax')
  finish
endif
syntax case match

syntax match starsRulesComment '#.*$' contains=@Spell
syntax match starsRulesNumber '\<\d\+\>'
syntax match starsRulesSymbol '[-+*/=<>|]'
syntax match starsRulesBracket '[()\[\]{},;.]'
" A word with no meaning of its own: a STAR, a parameter or a for-all name. Those below it take precedence.
syntax match starsRulesName '\<\h\w*\>'
syntax match starsRulesDefined '\(\<star\_s\+\)\@<=\h\w*'

syntax keyword starsRulesStatement star
syntax keyword starsRulesClause for in when give
syntax keyword starsRulesConditional if then else
syntax keyword starsRulesRequirement order temp path
syntax keyword starsRulesKind stream quants preds cols site index
syntax keyword starsRulesOperator ACCESS_HEAP ACCESS_INDEX GET FILTER SORT STORE SHIP PROBE
syntax keyword starsRulesOperator JOIN_NL JOIN_MERGE JOIN_HASH Glue
syntax keyword starsRulesFunction min max
syntax keyword starsRulesValue tables all none inside crossing between equalities indexable
syntax keyword starsRulesValue nocols orderby columns keys home querysite union minus meet
syntax keyword starsRulesRange indexes sites members each
syntax keyword starsRulesCondition empty single same within begins not and or
" The variables of formulas aren't reserved, and preds is a kind elsewhere: these are for formulas alone.
syntax region starsRulesFormula matchgroup=starsRulesStatement start='\<\(cost\|rescan\)\>' end=';'
    \ contains=starsRulesComment,starsRulesNumber,starsRulesSymbol,starsRulesBracket,starsRulesOperator,
    \starsRulesConditional,starsRulesFunction,starsRulesVariable
syntax keyword starsRulesVariable contained cost1 rescan1 card1 width1 cost2 rescan2 card2 width2
syntax keyword starsRulesVariable contained card width rows pages preds cpu net one

highlight default link starsRulesComment Comment
highlight default link starsRulesNumber Number
highlight default link starsRulesSymbol Operator
highlight default link starsRulesBracket Delimiter
highlight default link starsRulesName Identifier
highlight default link starsRulesDefined Function
highlight default link starsRulesStatement Statement
highlight default link starsRulesClause Keyword
highlight default link starsRulesConditional Conditional
highlight default link starsRulesRequirement StorageClass
highlight default link starsRulesKind Type
highlight default link starsRulesOperator Special
highlight default link starsRulesFunction Function
highlight default link starsRulesValue Function
highlight default link starsRulesRange Function
highlight default link starsRulesCondition Conditional
highlight default link starsRulesVariable Constant

let b:current_syntax = 'stars_rules'
