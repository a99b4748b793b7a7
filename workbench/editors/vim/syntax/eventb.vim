" Made by workbench/editors/make from the tables of the program; changes are lost.
if exists('b:current_syntax') | finish | endif
syntax case match
syntax keyword eventbStructure extends sets constants axioms end refines sees variables invariants variant events any where when with then begin theorem ordinary convergent anticipated
syntax keyword eventbHeading context machine event
syntax keyword eventbConstant FALSE false BOOL NAT1 TRUE pred prj1 prj2 succ true INT NAT id
syntax keyword eventbFunction partition finite inter union POW1 bool card POW dom max min ran
syntax keyword eventbBinder INTER UNION
syntax keyword eventbOperator oftype circ mod not or
syntax match eventbBinder /\V!/
syntax match eventbBinder /\V#/
syntax match eventbBinder /\V%/
syntax match eventbOperator /\V&/
syntax match eventbOperator /\V*/
syntax match eventbOperator /\V+/
syntax match eventbOperator /\V-/
syntax match eventbOperator /\V./
syntax match eventbOperator /\V\//
syntax match eventbOperator /\V:/
syntax match eventbOperator /\V;/
syntax match eventbOperator /\V</
syntax match eventbOperator /\V=/
syntax match eventbOperator /\V>/
syntax match eventbOperator /\V\\/
syntax match eventbOperator /\V^/
syntax match eventbOperator /\V|/
syntax match eventbOperator /\V~/
syntax match eventbOperator /\V¬/
syntax match eventbOperator /\V·/
syntax match eventbOperator /\V×/
syntax match eventbOperator /\V÷/
syntax match eventbBinder /\Vλ/
syntax match eventbOperator /\V‥/
syntax match eventbConstant /\Vℕ/
syntax match eventbFunction /\Vℙ/
syntax match eventbConstant /\Vℤ/
syntax match eventbOperator /\V→/
syntax match eventbOperator /\V↔/
syntax match eventbOperator /\V↠/
syntax match eventbOperator /\V↣/
syntax match eventbOperator /\V↦/
syntax match eventbOperator /\V⇒/
syntax match eventbOperator /\V⇔/
syntax match eventbOperator /\V⇸/
syntax match eventbBinder /\V∀/
syntax match eventbBinder /\V∃/
syntax match eventbConstant /\V∅/
syntax match eventbOperator /\V∈/
syntax match eventbOperator /\V∉/
syntax match eventbOperator /\V−/
syntax match eventbOperator /\V∖/
syntax match eventbOperator /\V∗/
syntax match eventbOperator /\V∘/
syntax match eventbOperator /\V∣/
syntax match eventbOperator /\V∥/
syntax match eventbOperator /\V∧/
syntax match eventbOperator /\V∨/
syntax match eventbOperator /\V∩/
syntax match eventbOperator /\V∪/
syntax match eventbOperator /\V∼/
syntax match eventbAssignment /\V≔/
syntax match eventbOperator /\V≠/
syntax match eventbOperator /\V≤/
syntax match eventbOperator /\V≥/
syntax match eventbOperator /\V⊂/
syntax match eventbOperator /\V⊄/
syntax match eventbOperator /\V⊆/
syntax match eventbOperator /\V⊈/
syntax match eventbOperator /\V⊗/
syntax match eventbConstant /\V⊤/
syntax match eventbConstant /\V⊥/
syntax match eventbBinder /\V⋂/
syntax match eventbBinder /\V⋃/
syntax match eventbOperator /\V▷/
syntax match eventbOperator /\V◁/
syntax match eventbOperator /\V⤀/
syntax match eventbOperator /\V⤔/
syntax match eventbOperator /\V⤖/
syntax match eventbOperator /\V⦂/
syntax match eventbOperator /\V⩤/
syntax match eventbOperator /\V⩥/
syntax match eventbOperator /\V/
syntax match eventbOperator /\V/
syntax match eventbOperator /\V/
syntax match eventbOperator /\V/
syntax match eventbOperator /\V**/
syntax match eventbOperator /\V../
syntax match eventbOperator /\V\/:/
syntax match eventbOperator /\V\/=/
syntax match eventbOperator /\V\/\\/
syntax match eventbAssignment /\V::/
syntax match eventbAssignment /\V:=/
syntax match eventbAssignment /\V:|/
syntax match eventbAssignment /\V:∈/
syntax match eventbAssignment /\V:∣/
syntax match eventbOperator /\V<+/
syntax match eventbOperator /\V<:/
syntax match eventbOperator /\V<=/
syntax match eventbOperator /\V<|/
syntax match eventbOperator /\V=>/
syntax match eventbOperator /\V></
syntax match eventbOperator /\V>=/
syntax match eventbOperator /\V\\\//
syntax match eventbConstant /\V{}/
syntax match eventbOperator /\V|>/
syntax match eventbOperator /\V||/
syntax match eventbConstant /\Vℕ1/
syntax match eventbFunction /\Vℙ1/
syntax match eventbOperator /\V+->/
syntax match eventbOperator /\V-->/
syntax match eventbOperator /\V->>/
syntax match eventbOperator /\V\/<:/
syntax match eventbOperator /\V<->/
syntax match eventbOperator /\V<<:/
syntax match eventbOperator /\V<<|/
syntax match eventbOperator /\V<=>/
syntax match eventbOperator /\V>+>/
syntax match eventbOperator /\V>->/
syntax match eventbOperator /\V|->/
syntax match eventbOperator /\V|>>/
syntax match eventbOperator /\V+->>/
syntax match eventbOperator /\V-->>/
syntax match eventbOperator /\V\/<<:/
syntax match eventbOperator /\V<->>/
syntax match eventbOperator /\V<<->/
syntax match eventbOperator /\V>->>/
syntax match eventbOperator /\V<<->>/
syntax match eventbNumber /\<[0-9]\+\>/
syntax match eventbLabel /@[A-Za-z0-9_.'-]\{1,64}/
syntax match eventbComment +//.*$+ contains=@Spell
syntax region eventbComment start=+/\*+ end=+\*/+ contains=@Spell
highlight default link eventbStructure Keyword
highlight default link eventbHeading Structure
highlight default link eventbConstant Constant
highlight default link eventbFunction Function
highlight default link eventbBinder Statement
highlight default link eventbAssignment Statement
highlight default link eventbOperator Operator
highlight default link eventbNumber Number
highlight default link eventbLabel Label
highlight default link eventbComment Comment
let b:current_syntax = 'eventb'
