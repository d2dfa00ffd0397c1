" Goes to each entry of the error list, and writes where that is and what it says.
let kinds = {'e': 'error', 'w': 'warning'}
let places = []
for entry in range(1, len(getqflist()))
  execute 'cc' entry
  let found = getqflist()[entry - 1]
  let place = found.lnum ? 'line ' . line('.') . ': ' . getline('.') : 'the whole file'
  call add(places, bufname('%') . ', ' . place)
  call add(places, '  ' . get(kinds, found.type, 'message') . ': ' . found.text)
endfor
call writefile(places, 'places')
qall!
