" Made by workbench/editors/make from the tables of the program; changes are lost.
autocmd BufNewFile,BufRead *.eventb setfiletype eventb
