" Catalogues of stars.
if exists('b:current_syntax')
  finish
endif
syntax case match

" Every word may be a name, so that a word has its meaning by its place.
syntax match starsCatalogueName '\<\h\w*\>'
syntax match starsCatalogueStatement '\<\(site\|table\|index\)\>\ze\_s\+\h'
syntax match starsCatalogueDefined '\(\(^\|;\)\_s*\(site\|table\|index\)\_s\+\)\@<=\h\w*'
syntax match starsCatalogueProperty '\<\(cpu\|net\|rows\|pages\|width\|distinct\)\>\ze\_s\+\d'
syntax match starsCatalogueProperty '\<file\>\ze\_s*'''
syntax match starsCatalogueProperty '\<\(at\|on\)\>\ze\_s\+\h'
syntax match starsCatalogueType '\<\(int\|text\)\>\ze\_s\+width\>'
syntax match starsCatalogueNumber '\<\d\+\>'
syntax match starsCatalogueBracket '[(),;]'
syntax region starsCatalogueFile start=+'+ skip=+''+ end=+'+
syntax match starsCatalogueComment '#.*$' contains=@Spell

highlight default link starsCatalogueName Identifier
highlight default link starsCatalogueStatement Statement
highlight default link starsCatalogueDefined Function
highlight default link starsCatalogueProperty Keyword
highlight default link starsCatalogueType Type
highlight default link starsCatalogueNumber Number
highlight default link starsCatalogueBracket Delimiter
highlight default link starsCatalogueFile String
highlight default link starsCatalogueComment Comment

let b:current_syntax = 'stars_catalogue'
