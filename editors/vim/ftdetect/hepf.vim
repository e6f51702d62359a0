" A file NAME.f is HEP FORTRAN where it has an asynchronous name, a CREATE or a PURGE, or where g:hepf_all is set.

function! s:IsHepf() abort
  let async = '\$\s*\a'
  let word = '\%(CREATE\|PURGE\)\s'
  return get(g:, 'hepf_all', 0) || search('\c^[^C*].\{5,}\%(' . async . '\|' . word . '\)', 'cnw') > 0
endfunction

autocmd BufNewFile,BufRead *.f if s:IsHepf() | set filetype=hepf | endif
