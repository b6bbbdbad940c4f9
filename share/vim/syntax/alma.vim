" Alma-0
if exists("b:current_syntax")
  finish
endif
syn case match

syn keyword almaChoice EITHER ORELSE SOME FORALL COMMIT NOT
syn keyword almaStatement BEGIN BY CASE DO ELSE ELSIF END FOR IF OF REPEAT RETURN THEN TO UNTIL WHILE
syn keyword almaDeclaration ARRAY CONST MIX MODULE PROCEDURE RECORD TYPE VAR
syn keyword almaOperator AND DIV MOD OR
syn keyword almaFunction CHR KNOWN ORD READ WRITE WRITELN
syn keyword almaType BOOLEAN CHAR INTEGER
syn keyword almaConstant FALSE TRUE
syn match almaNumber "\<\d\+"
syn region almaLiteral start=+"+ end=+"+ oneline
syn region almaLiteral start=+'+ end=+'+ oneline
syn region almaComment start="(\*" end="\*)" contains=almaComment

hi def link almaChoice Special
hi def link almaStatement Statement
hi def link almaDeclaration Structure
hi def link almaOperator Operator
hi def link almaFunction Function
hi def link almaType Type
hi def link almaConstant Boolean
hi def link almaNumber Number
hi def link almaLiteral String
hi def link almaComment Comment

syn sync fromstart
let b:current_syntax = "alma"
