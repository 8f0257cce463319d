" How far lines of programs of raml are indented: by what the line before ends with, and `|` and `else` as the `match` and the `if` to
" which they belong.
if exists('b:did_indent')
  finish
endif
let b:did_indent = 1

setlocal indentexpr=RamlIndent(v:lnum)
setlocal indentkeys=o,O,!^F,0\|,0=else,0=fun
let b:undo_indent = 'setlocal indentexpr< indentkeys<'

if exists('*RamlIndent')
  finish
endif

" The line without its comments that end in it.
function! s:Text(number)
  return trim(substitute(getline(a:number), '(\*.\{-}\*)', '', 'g'))
endfunction

" The line above that opens what the line before this number is in: opened by lines of the one kind, ended by those of the other.
function! s:Opening(number, opens, ends)
  let ended = 0
  for number in range(a:number - 1, 1, -1)
    let text = s:Text(number)
    if text =~# '^fun\>'
      break
    endif
    if text =~# a:ends
      let ended += 1
    endif
    if text =~# a:opens
      if ended == 0
        return number
      endif
      let ended -= 1
    endif
  endfor
  return prevnonblank(a:number - 1)
endfunction

function! s:IsInComment(number)
  return synIDattr(synID(a:number, 1, 0), 'name') ==# 'ramlComment'
endfunction

function! s:Behind(before)
  let text = s:Text(a:before)
  let indent = indent(a:before)
  if text =~# '=$'
    return text =~# '\<let\>' ? indent + shiftwidth() : shiftwidth()
  elseif text =~# '->$'
    return indent + (text =~# '^|' ? 2 : 1) * shiftwidth()
  elseif text =~# '\<\%(with\|then\|else\)$' || text =~# '^else\>.*\<in$'
    return indent + shiftwidth()
  elseif text =~# ',$'
    return indent + 2 * shiftwidth()
  endif
  return indent
endfunction

function! RamlIndent(number)
  let before = prevnonblank(a:number - 1)
  let text = s:Text(a:number)
  if before == 0 || text =~# '^fun\>'
    return 0
  elseif s:IsInComment(a:number)
    return -1
  elseif text =~# '^:'
    return 2 * shiftwidth()
  elseif text =~# '^|'
    return indent(s:Opening(a:number, '\<match\>\%(.*|\)\@!', '^|'))
  elseif text =~# '^else\>'
    return indent(s:Opening(a:number, '\<if\>\%(.*\<else\>\)\@!', '^else\>\%( if\>\)\@!'))
  endif
  return s:Behind(before)
endfunction
