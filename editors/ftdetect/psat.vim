" A file is a problem text of psat by its name, or by its first line.
autocmd BufNewFile,BufRead *.psat setfiletype psat
autocmd BufRead * if !did_filetype() && getline(1) =~# '^psat\s\+[12]\s*;' | setfiletype psat | endif
autocmd FileType psat setlocal commentstring=#\ %s
