" `:compiler hepf` makes `:make` list the refusals and warnings of the file that is edited.
if exists('g:current_compiler')
  finish
endif
let g:current_compiler = 'hepf'

CompilerSet makeprg=hepf\ check\ --warn\ --format\ gnu\ %:S
CompilerSet errorformat=%f:%l:%c:\ %trror:\ %n\ %m,%f:%l:\ %trror:\ %n\ %m,%f:%l:\ %tarning:\ %m,%f:\ %trror:\ %n\ %m
