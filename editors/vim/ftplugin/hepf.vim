" Settings for HEP FORTRAN: columns 6, 7 and 73 are marked, and a tab key writes blanks, since a tab is refused (101).
if exists('b:did_ftplugin')
  finish
endif
let b:did_ftplugin = 1

setlocal colorcolumn=6,7,73 expandtab shiftwidth=3 commentstring=C%s comments=:C,:c,:*
let b:undo_ftplugin = 'setlocal colorcolumn< expandtab< shiftwidth< commentstring< comments<'
