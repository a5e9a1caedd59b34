" Which files are mstplan's, made by docs/syntax.py
function! s:Detect(words, type)
  for line in getline(1, 200)
    if line =~# '\v^\s*%(' . a:words . ')%(\s|$)'
      execute 'setfiletype' a:type
      return
    endif
  endfor
endfunction
autocmd BufNewFile,BufRead *.script,*.change call s:Detect('addbridge|delbridge|bridge|kind|addport|delport|addlan|dellan|lan|speed|plug|unplug|setkey|setsyspri|settreeprio|settreeportprio|setportpathcost|setportrestrrole|settreeportcost|setmstconfid|setvid2mstid|setmaxhops|setmaxage|setportvlans|showplan|showlag|showregions|shownotes|showtree|showvlan|showmstconfid|mark|changes|save|digest|mstplan\s+2', 'mstplan')
autocmd BufNewFile,BufRead *.policy call s:Detect('root|region|role|reach|apart|leaves|together|leaf|depth|hops|via|carries|avoids|fits|risk|finally|always|after', 'mstplanpolicy')
