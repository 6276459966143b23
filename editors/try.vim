" Looks at each character of the files that Vim was given, and writes to $REPORT where one has no group of highlighting. Files of
" comments alone are left out, since nothing tells what they are.
set nocompatible nomore
filetype plugin on
syntax on
let s:lines = []
let s:files = 0
for s:name in argv()
  execute 'edit' fnameescape(s:name)
  if !search('^\s*[^#[:blank:]]', 'cnw')
    continue
  endif
  let s:files += 1
  if &filetype !~# '^stars_' || &commentstring !=# '# %s' || !exists('b:current_syntax')
    call add(s:lines, s:name . ': no syntax')
  endif
  syntax sync fromstart
  for s:line in range(1, line('$'))
    for s:column in range(1, col([s:line, '$']) - 1)
      if getline(s:line)[s:column - 1] =~# '\S' && synIDattr(synIDtrans(synID(s:line, s:column, 1)), 'name') ==# ''
        call add(s:lines, s:name . ':' . s:line . ':' . s:column)
      endif
    endfor
  endfor
endfor
call add(s:lines, len(s:lines) . ' without a group, in ' . s:files . ' files')
call writefile(s:lines, $REPORT)
quitall!
