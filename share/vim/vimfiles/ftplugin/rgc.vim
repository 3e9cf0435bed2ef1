" An outline is verified by :RgcVerify, and with `let g:rgc_verify_on_save = 1` whenever it is saved.
" g:rgc_program is the program, `rgc` where it isn't set. scripts/editors writes this file.
if exists('b:did_ftplugin')
  finish
endif
let b:did_ftplugin = 1
setlocal commentstring=#\ %s comments=:# expandtab shiftwidth=2
let b:undo_ftplugin = 'setlocal commentstring< comments< expandtab< shiftwidth<'

" Verifies the outline of the buffer as it was saved: its reports are the quickfix list, and the verdict is said.
" (In a used file to which it jumps this file is read again, while it runs.)
if !exists('*s:Verify')
  function s:Verify() abort
    let l:call = [get(g:, 'rgc_program', 'rgc'), 'verify', '--format', 'json', expand('%:p')]
    let l:said = systemlist(join(map(l:call, 'shellescape(v:val)'), ' ') . ' 2>&1')
    let l:places = []
    let l:verdict = v:shell_error == 0 ? 'verified' : 'not verified'
    for l:line in l:said
      if l:line !~# '^{'
        let l:verdict = l:line
        continue
      endif
      let l:value = json_decode(l:line)
      if has_key(l:value, 'sentence')
        let l:type = l:value.kind ==# 'warning' ? 'W' : 'E'
        call add(l:places, {'filename': l:value.file, 'lnum': l:value.line, 'col': l:value.column, 'text': l:value.sentence, 'type': l:type})
        if l:value.kind ==# 'refused'
          let l:verdict = 'refused'
        endif
      elseif l:value.kind ==# 'verified'
        let l:verdict = 'verified: ' . l:value.conditions . ' conditions'
      elseif l:value.kind ==# 'run'
        call add(l:places, {'text': 'a run breaks it: ' . join([l:value.start] + l:value.steps, '; ')})
      endif
    endfor
    call setqflist([], ' ', {'title': 'rgc verify', 'items': l:places})
    if !empty(l:places)
      silent! cfirst
    endif
    redraw
    echo l:verdict
  endfunction
endif

if expand('%:e') ==# 'rgo'
  command! -buffer RgcVerify call s:Verify()
  if get(g:, 'rgc_verify_on_save', 0)
    augroup rgc_verify
      autocmd! BufWritePost <buffer> nested call s:Verify()
    augroup END
  endif
endif
