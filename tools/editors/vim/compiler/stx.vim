" Vim compiler file: faults of Smalltalk interchange files.
" Copy it to ~/.vim/compiler/stx.vim, put `stx` and `tools/where` into the path, and say `:compiler stx`; `:make` then jumps to
" what `stx check` refuses.
if exists("current_compiler")
  finish
endif
let current_compiler = "stx"

CompilerSet makeprg=stx\ check\ <\ %\ 2>&1\ \\\|\ where\ %
CompilerSet errorformat=%f:%l:%c:\ %m
