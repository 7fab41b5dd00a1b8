" Objects of pathserve are .pp files that begin with `object` or a comment; Vim takes .pp for Pascal or Puppet.
autocmd BufRead,BufNewFile *.pp if getline(1) =~? '^\s*\(object\>\|{\|(\*\)' | set filetype=pathobject | endif
