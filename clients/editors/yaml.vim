" For ftplugin/yaml.vim: `:make` checks, `:copen` lists the findings, and `:w` formats. A text that is refused is written
" as it is.
setlocal makeprg=confstore\ check\ --keep-comments\ --\ %:S
setlocal errorformat=%f:%l:%c:\ %m,%f:%l:\ %m,%f:\ %m
function! ConfstoreFormat() abort
  let l:text = getline(1, '$')
  let l:styled = systemlist('confstore format --keep-comments', l:text)
  if v:shell_error || l:styled ==# l:text
    return
  endif
  let l:view = winsaveview()
  call setline(1, l:styled)
  call deletebufline('%', len(l:styled) + 1, '$')
  call winrestview(l:view)
endfunction
augroup confstore
  autocmd! BufWritePre <buffer> call ConfstoreFormat()
augroup END
