" Vim: .rt as Rust with contracts, .antt, and the symbols as \-abbreviations. `:source` this file, or link it into ~/.vim/plugin.
syntax on
augroup gate
  autocmd!
  autocmd BufRead,BufNewFile *.rt setfiletype rust | call s:contracts() | call s:symbols()
  autocmd BufRead,BufNewFile *.antt setfiletype antt | call s:antt() | call s:symbols()
augroup END

function! s:contracts() abort
  syntax keyword rustKeyword ghost requires ensures
  syntax match Operator /[→≡≢≤∷∙×⊎⊥λ◌]/
endfunction

function! s:antt() abort
  syntax keyword Keyword use mod pub abbrev unfoldable data record newtype where mutual let in if then else of by syntax infix infixl infixr
  syntax keyword Statement rw subst absurd omega grind simp search split unfolding refl
  syntax match Comment /^\s*--.*\|\s--\s.*/
  syntax match Type /\<\u\w*\>\|[ℕℤ⊥]/
  syntax match Operator /[→≡≢≤∷∙×⊎λ↦↔∥◌]/
  syntax region String start=/"/ skip=/\\"/ end=/"/ oneline
  setlocal commentstring=--\ %s
endfunction

function! s:symbols() abort
  for [name, symbol] in items({'to': '→', '==': '≡', '==n': '≢', 'bN': 'ℕ', 'bZ': 'ℤ', '::': '∷', 'lambda': 'λ', 'x': '×', '.': '∙', '<=': '≤',
        \ 'bot': '⊥', 'u+': '⊎', 'par': '∥', 'hole': '◌', 'f<<': '«', 'f>>': '»', 'mapsto': '↦', '<->': '↔', '_1': '₁', '_2': '₂', 'l': '←'})
    execute 'inoremap <buffer>' '\' . name symbol
  endfor
endfunction
