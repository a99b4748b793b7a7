" Made by workbench/editors/make from the tables of the program; changes are lost.
if exists('b:did_ftplugin') | finish | endif
let b:did_ftplugin = 1
setlocal commentstring=//\ %s
compiler rodin
" With g:eventb_signs the words of signs become signs as they are typed.
if get(g:, 'eventb_signs', 0)
  iabbrev <buffer> INT ℤ
  iabbrev <buffer> INTER ⋂
  iabbrev <buffer> NAT ℕ
  iabbrev <buffer> NAT1 ℕ1
  iabbrev <buffer> POW ℙ
  iabbrev <buffer> POW1 ℙ1
  iabbrev <buffer> UNION ⋃
  iabbrev <buffer> circ ∘
  iabbrev <buffer> false ⊥
  iabbrev <buffer> not ¬
  iabbrev <buffer> oftype ⦂
  iabbrev <buffer> or ∨
  iabbrev <buffer> true ⊤
endif
