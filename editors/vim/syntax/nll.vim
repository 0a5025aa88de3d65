" Vim syntax file
" Language: the files of nlldb: sections (docs/user/command-line.md, Files) with texts (docs/user/language.md). .ci/gate/editors compares this with both.
" Install: copy the folders `syntax` and `ftdetect` into ~/.vim

if exists("b:current_syntax")
  finish
endif

syntax case match
syntax iskeyword @,48-57,_

syntax keyword nllDeclaration fn closure struct extern let where
syntax keyword nllType int
syntax keyword nllModifier mut
syntax keyword nllValue copy move calc
syntax keyword nllControl goto if call invoke return stop
syntax keyword nllStatement dead drop nop

" Of patterns that match at one place, the last one counts.
syntax match nllError /[^ ]/
syntax match nllError /[A-Za-z0-9_]\+/
syntax match nllError /'?\=[A-Za-z0-9_]*/

syntax match nllRegion /'[a-z][a-z0-9_]*\>/
syntax match nllVariable /'?\%(0\|[1-9][0-9]*\)\>/
syntax match nllName /\<[A-Za-z][A-Za-z0-9_]*\>/
syntax match nllFunction /\%(\<\%(call\|extern\) \+\)\@<=[A-Za-z][A-Za-z0-9_]*\>/
syntax match nllLabel /\<bb\%(0\|[1-9][0-9]*\)\>/
syntax match nllLocal /\<_\%(0\|[1-9][0-9]*\)\>/
syntax match nllNumber /\<\%(0\|[1-9][0-9]*\)\>/
syntax match nllField /\%(\. *\)\@<=\%(0\|[1-9][0-9]*\)\>/

syntax match nllDelimiter /[(){}\[\]<>,;:.]/
syntax match nllOperator /->\|[&=+*]/
syntax match nllVariance /[+=]\%( *'[a-z]\)\@=/

syntax match nllError /^@.*$/
syntax match nllSection /^@\%(\%([0-9]\|1[0-5]\) \)\=types$/ contains=nllSession
syntax match nllSection /^@\%(\%([0-9]\|1[0-5]\) \)\=put [A-Za-z_]\w\{,31}\%(\/\%([0-9]\|[1-5][0-9]\|6[0-3]\)\)\{,7}$/ contains=nllSession,nllStored
syntax match nllSection /^@\%([0-9]\|1[0-5]\) askall$/ contains=nllSession
syntax match nllSection /^@\%([0-9]\|1[0-5]\) \%(remove\|ask\) [A-Za-z_]\w\{,31}\%(\/\%([0-9]\|[1-5][0-9]\|6[0-3]\)\)\{,7}$/ contains=nllSession,nllStored
syntax match nllSession /\%(^@\)\@<=[0-9]\+/ contained
syntax match nllStored /\%( \%(put\|remove\|ask\) \|@put \)\@<=\S\+$/ contained

highlight default link nllDeclaration Structure
highlight default link nllType Type
highlight default link nllModifier StorageClass
highlight default link nllValue Operator
highlight default link nllControl Statement
highlight default link nllStatement Statement
highlight default link nllRegion Special
highlight default link nllVariable Special
highlight default link nllName Type
highlight default link nllFunction Function
highlight default link nllLabel Label
highlight default link nllLocal Identifier
highlight default link nllNumber Number
highlight default link nllField Identifier
highlight default link nllDelimiter Delimiter
highlight default link nllOperator Operator
highlight default link nllVariance StorageClass
highlight default link nllError Error
highlight default link nllSection PreProc
highlight default link nllSession Number
highlight default link nllStored Title

let b:current_syntax = "nll"
