" A session of Pelunavosh: a file *.fx with the line FXBOOK among its first lines, behind comments.
autocmd BufNewFile,BufRead *.fx if match(getline(1, 20), '^\s*FXBOOK\>') >= 0 | set filetype=fxbook | endif
