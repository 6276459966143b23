" No test of b:did_ftplugin: Vim takes a file of this ending for one of another program first.
setlocal comments=:# commentstring=#\ %s
let b:undo_ftplugin = 'setlocal comments< commentstring<'
