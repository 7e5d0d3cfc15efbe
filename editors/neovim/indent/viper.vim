" Indentation of Viper: by the braces around a line, and a clause once more.
if exists('b:did_indent') | finish | endif
let b:did_indent = 1
setlocal indentexpr=ViperIndent() indentkeys=0{,0},!^F,o,O,e,=requires,=ensures,=invariant
if exists('*ViperIndent') | finish | endif

function ViperIndent()
  let open = searchpair('{', '', '}', 'bnW', 'synIDattr(synID(line("."), col("."), 1), "name") =~ "Comment"')
  let line = getline(v:lnum)
  let around = open > 0 ? s:begin(open) + shiftwidth() : 0
  if line =~ '^\s*}' | return around - shiftwidth() | endif
  return around + (line =~ '^\s*\(requires\|ensures\|invariant\)\>' ? shiftwidth() : 0)
endfunction

" How far the line is indented to whose statement a brace belongs: clauses may stand between the two.
function s:begin(number)
  let at = a:number
  while at > 1 && getline(at) =~ '^\s*\({\|requires\|ensures\|invariant\)'
    let at -= 1
  endwhile
  return indent(at)
endfunction
