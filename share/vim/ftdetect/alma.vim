" Vim takes *.al for Perl; here it is Alma-0.
autocmd BufRead,BufNewFile *.al set filetype=alma
