" Comments, indentation, words that belong together (for %), and `alma help` of the word under the cursor (K).
if exists("b:did_ftplugin")
  finish
endif
let b:did_ftplugin = 1
setlocal comments=s:(*,m:\ ,e:*) commentstring=(*\ %s\ *)
setlocal shiftwidth=2 expandtab suffixesadd=.al keywordprg=alma\ help
let b:match_words = '\<\%(IF\|CASE\|EITHER\|SOME\|FORALL\|FOR\|WHILE\|COMMIT\|RECORD\|BEGIN\)\>:\<\%(THEN\|ELSIF\|ELSE\|ORELSE\|DO\)\>:\<END\>'
let b:match_words .= ',\<REPEAT\>:\<UNTIL\>'
let b:undo_ftplugin = "setlocal comments< commentstring< shiftwidth< expandtab< suffixesadd< keywordprg< | unlet! b:match_words"
