" Made by workbench/editors/make from the tables of the program; changes are lost.
if exists('current_compiler') | finish | endif
let current_compiler = 'rodin'
CompilerSet makeprg=rodin-watch\ --once\ %:p:h:S
CompilerSet errorformat=%f:%l:%c:\ %tarning:\ %m,%f:%l:%c:\ %m,%-G%.%#
