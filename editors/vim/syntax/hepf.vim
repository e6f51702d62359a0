" Syntax of HEP FORTRAN in fixed form. The words in capitals are those that hepf reads: editors/build writes them from editors/words.
if exists('b:current_syntax')
  finish
endif

syntax case ignore

syntax keyword hepfStatement PROGRAM SUBROUTINE FUNCTION INTEGERFUNCTION LOGICALFUNCTION
syntax keyword hepfStatement IMPLICIT INTEGER LOGICAL DIMENSION COMMON PARAMETER DATA
syntax keyword hepfStatement GOTO IF THEN ELSEIF ELSE ENDIF END DO CALL CREATE PURGE PRINT CONTINUE RETURN RESUME STOP
syntax match hepfStatement "\<go\s\+to\>"

" A statement that the language leaves out is refused (202), but its word may be the name of a variable.
syntax keyword hepfLeftOut contained REAL DOUBLEPRECISION COMPLEX CHARACTER READ WRITE FORMAT OPEN CLOSE INQUIRE REWIND
syntax keyword hepfLeftOut contained BACKSPACE ENDFILE EQUIVALENCE SAVE ENTRY EXTERNAL INTRINSIC ASSIGN PAUSE BLOCKDATA
syntax keyword hepfLeftOut contained INCLUDE
syntax match hepfFirstWord "\%>6c\%(^.\{6}\s*\)\@<=\a\+\>\%(\s*=\)\@!" contains=hepfLeftOut,hepfStatement

syntax match hepfFunction "\<\%(ABS\|IABS\|MOD\|SIGN\|ISIGN\|DIM\|IDIM\|MAX\|MAX0\|MIN\|MIN0\)\ze\s*("
syntax match hepfFunction "\<\%(FULL\|EMPTY\|VALUE\|SETE\|WAITF\)\ze\s*("
syntax match hepfOperator "\.\s*\%(EQV\|NEQV\|OR\|AND\|NOT\|LT\|LE\|EQ\|NE\|GT\|GE\)\s*\."
syntax match hepfLogical "\.\s*\%(TRUE\|FALSE\)\s*\."
syntax match hepfNumber "\<\d\+\>"
syntax match hepfAsynchronous "\$\s*\a\w*"

" A character constant ends with its line, unless the next line but comments is a continuation line.
syntax region hepfCharacters keepend start="'" skip="''" end="\%<73c'" end="\%(\%73c\|$\)\%(.*\%(\n[c*].*\)*\n\%( \{5}[^ 0]\|[c*]\)\@!\)\@=" contains=hepfContinuation,hepfComment

syntax match hepfLabel "^\%( *\d\)\@=[ 0-9]\{1,5}"
syntax match hepfContinuation "^ \{5}\zs[^ 0]"
syntax match hepfTab "\t" containedin=ALLBUT,hepfComment
syntax match hepfComment "^[c*].*"
" Columns are bytes.
syntax match hepfBeyond "\%>72c.\+" containedin=ALLBUT,hepfComment

highlight default link hepfStatement Statement
highlight default link hepfLeftOut Error
highlight default link hepfFunction Function
highlight default link hepfOperator Operator
highlight default link hepfLogical Boolean
highlight default link hepfNumber Number
highlight default link hepfAsynchronous Special
highlight default link hepfCharacters String
highlight default link hepfLabel Label
highlight default link hepfContinuation Delimiter
highlight default link hepfTab Error
highlight default link hepfComment Comment
highlight default link hepfBeyond Error

let b:current_syntax = 'hepf'
