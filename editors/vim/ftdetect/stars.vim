" The texts of stars, by the endings of their names. Other programs have files that end in .rules too: one of stars begins, after its
" comments, with one of the three words of its statements.
autocmd BufRead,BufNewFile *.rules
    \ if getline(search('^\s*[^#[:blank:]]', 'cnw')) =~# '^\s*\(cost\|rescan\|star\)\>' |
    \ set filetype=stars_rules | endif
autocmd BufRead,BufNewFile *.catalogue setfiletype stars_catalogue
autocmd BufRead,BufNewFile *.query setfiletype stars_query
autocmd BufRead,BufNewFile *.derivation setfiletype stars_derivation
