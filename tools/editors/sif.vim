" Vim syntax file: Smalltalk interchange files (ANSI NCITS 319-1998, section 4)
" Copy it to ~/.vim/syntax/sif.vim, and put into ~/.vim/ftdetect/sif.vim:
"   autocmd BufNewFile,BufRead *.sif setfiletype sif
" To jump to what `stx check` refuses: :make, with
"   setlocal makeprg=stx\ check\ <\ %\ 2>&1\ \\\|\ tools/where\ %
"   setlocal errorformat=%f:%l:%c:\ %m
if exists("b:current_syntax")
  finish
endif

syntax case match
syntax sync fromstart

syntax match sifIdentifier /\<[A-Za-z_][A-Za-z0-9_]*\>/
syntax match sifKeyword /\<[A-Za-z_][A-Za-z0-9_]*:=\@!/
syntax match sifOperator /[-+*\/\\<>=~,@%&|?]\+/
syntax match sifAssign /:=/
syntax match sifReturn /\^/
syntax match sifBlock /[][]/
syntax match sifArgument /:\s*[A-Za-z_][A-Za-z0-9_]*\>/ contains=NONE
syntax keyword sifConstant nil true false
syntax keyword sifPseudo self super
syntax keyword sifTranscript Transcript
syntax match sifNumber /-\?\<\d\+\(r[0-9A-Z]\+\)\?\>/
syntax match sifCharacter /\$\_./
syntax match sifSymbol /#\([A-Za-z_][A-Za-z0-9_:]*\|[-+*\/\\<>=~,@%&|?]\+\)/
syntax region sifSymbol start=/#'/ skip=/''/ end=/'/ contains=sifDoubled
syntax region sifString start=/'/ skip=/''/ end=/'/ contains=sifDoubled
syntax match sifDoubled /!!/ contained
syntax region sifComment start=/"/ end=/"/ contains=sifDoubled
syntax match sifBang /!/

syntax match sifHeader /\<Smalltalk\s\+interchangeVersion:/
syntax match sifHeader /\<Class\s\+named:/
syntax match sifHeader /\<\(superclass\|indexedInstanceVariables\|instanceVariableNames\|classVariableNames\|sharedPools\|classInstanceVariableNames\):/
syntax match sifHeader /\<Global\s\+\(variable:\|constant:\|initializer\>\)/
syntax match sifHeader /\<Pool\s\+named:/
syntax match sifHeader /\<[A-Za-z_][A-Za-z0-9_]*\s\+\(initializerFor:\|initializer\>\)/
syntax match sifHeader /\<[A-Za-z_][A-Za-z0-9_]*\s\+\(method\|classMethod\)\s*!/
syntax match sifHeader /\<Annotation\s\+key:/

highlight default link sifIdentifier Identifier
highlight default link sifKeyword Function
highlight default link sifOperator Operator
highlight default link sifAssign Operator
highlight default link sifReturn Statement
highlight default link sifBlock Delimiter
highlight default link sifArgument Type
highlight default link sifConstant Constant
highlight default link sifPseudo Special
highlight default link sifTranscript Special
highlight default link sifNumber Number
highlight default link sifCharacter Character
highlight default link sifSymbol Constant
highlight default link sifString String
highlight default link sifDoubled SpecialChar
highlight default link sifComment Comment
highlight default link sifBang Special
highlight default link sifHeader PreProc

let b:current_syntax = "sif"
