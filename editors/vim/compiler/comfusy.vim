" `:make` asks whether the file is refused, and puts the place into the quickfix list: a source is run, and a target executed, on no lines.
if exists('current_compiler')
  finish
endif
let current_compiler = 'comfusy'

" The first line names the file, which refusals of language 2 and of targets do not.
let s:command = expand('%:e') ==# 'target' ? 'exec' : 'run'
execute 'CompilerSet makeprg=' .. escape('(echo file: %:S; comfusy ' .. s:command .. ' %:S < /dev/null)', ' ')

" Of edition 3 the place, and the help behind what is wrong, or no place; of all else the place, or a line without one.
CompilerSet errorformat=%-Pfile:\ %f,
      \%E%f:%l:%c:\ %m,
      \%Zhelp:\ %m,
      \%-C%.%#,
      \%+E%f:\ no\ main,
      \%+E%f:\ text\ too\ long,
      \line\ %l\ column\ %c:\ %m,
      \%+E%.%#
