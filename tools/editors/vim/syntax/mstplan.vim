" Syntax of mstplan's files, made by docs/syntax.py
if exists("b:current_syntax")
  finish
endif
syn case match
syn match mstplanWrong /^\s*\S.*$/
syn match mstplanRest /\s*\S.*$/ contained
syn match mstplanEdit /\v^\s*%(addbridge|delbridge|bridge|kind|addport|delport|addlan|dellan|lan|speed|plug|unplug|setkey|setsyspri|settreeprio|settreeportprio|setportpathcost|setportrestrrole|settreeportcost|setmstconfid|setvid2mstid|setmaxhops|setmaxage|setportvlans|showplan|showlag|showregions|shownotes|showtree|showvlan|showmstconfid|mark|changes|save|digest)\ze%(\s|$)/ nextgroup=mstplanRest
syn match mstplanEdit /\v^\s*addbridge\ze\s+[A-Za-z0-9][A-Za-z0-9_.-]{0,15}\s+[0-9A-Fa-f]{2}%([:-][0-9A-Fa-f]{2}){5}\s*$/ contains=mstplanScope nextgroup=@mstplanArgument skipwhite
syn match mstplanEdit /\v^\s*delbridge\ze\s+[A-Za-z0-9][A-Za-z0-9_.-]{0,15}\s*$/ contains=mstplanScope nextgroup=@mstplanArgument skipwhite
syn match mstplanEdit /\v^\s*bridge\ze\s+[A-Za-z0-9][A-Za-z0-9_.-]{0,15}\s+%(on|off)\s*$/ contains=mstplanScope nextgroup=@mstplanArgument skipwhite
syn match mstplanEdit /\v^\s*kind\ze\s+[A-Za-z0-9][A-Za-z0-9_.-]{0,15}\s+%(mstp|rstp)\s*$/ contains=mstplanScope nextgroup=@mstplanArgument skipwhite
syn match mstplanEdit /\v^\s*addport\ze\s+[A-Za-z0-9][A-Za-z0-9_.-]{0,15}\s+[0-9]{1,10}\s*$/ contains=mstplanScope nextgroup=@mstplanArgument skipwhite
syn match mstplanEdit /\v^\s*delport\ze\s+[A-Za-z0-9][A-Za-z0-9_.-]{0,15}\s+[0-9]{1,10}\s*$/ contains=mstplanScope nextgroup=@mstplanArgument skipwhite
syn match mstplanEdit /\v^\s*addlan\ze\s+[A-Za-z0-9][A-Za-z0-9_.-]{0,15}\s*$/ contains=mstplanScope nextgroup=@mstplanArgument skipwhite
syn match mstplanEdit /\v^\s*dellan\ze\s+[A-Za-z0-9][A-Za-z0-9_.-]{0,15}\s*$/ contains=mstplanScope nextgroup=@mstplanArgument skipwhite
syn match mstplanEdit /\v^\s*lan\ze\s+[A-Za-z0-9][A-Za-z0-9_.-]{0,15}\s+%(up|down)\s*$/ contains=mstplanScope nextgroup=@mstplanArgument skipwhite
syn match mstplanEdit /\v^\s*speed\ze\s+[A-Za-z0-9][A-Za-z0-9_.-]{0,15}\s+[0-9]{1,10}\s*$/ contains=mstplanScope nextgroup=@mstplanArgument skipwhite
syn match mstplanEdit /\v^\s*plug\ze\s+[A-Za-z0-9][A-Za-z0-9_.-]{0,15}\s+[0-9]{1,10}\s+[A-Za-z0-9][A-Za-z0-9_.-]{0,15}\s*$/ contains=mstplanScope nextgroup=@mstplanArgument skipwhite
syn match mstplanEdit /\v^\s*unplug\ze\s+[A-Za-z0-9][A-Za-z0-9_.-]{0,15}\s+[0-9]{1,10}\s*$/ contains=mstplanScope nextgroup=@mstplanArgument skipwhite
syn match mstplanEdit /\v^\s*setkey\ze\s+[A-Za-z0-9][A-Za-z0-9_.-]{0,15}\s+[0-9]{1,10}\s+[0-9]{1,10}\s*$/ contains=mstplanScope nextgroup=@mstplanArgument skipwhite
syn match mstplanEdit /\v^\s*setsyspri\ze\s+[A-Za-z0-9][A-Za-z0-9_.-]{0,15}\s+[0-9]{1,10}\s*$/ contains=mstplanScope nextgroup=@mstplanArgument skipwhite
syn match mstplanEdit /\v^\s*settreeprio\ze\s+[A-Za-z0-9][A-Za-z0-9_.-]{0,15}\s+[0-9]{1,10}\s+[0-9]{1,10}\s*$/ contains=mstplanScope nextgroup=@mstplanArgument skipwhite
syn match mstplanEdit /\v^\s*settreeportprio\ze\s+[A-Za-z0-9][A-Za-z0-9_.-]{0,15}\s+[0-9]{1,10}\s+[0-9]{1,10}\s+[0-9]{1,10}\s*$/ contains=mstplanScope nextgroup=@mstplanArgument skipwhite
syn match mstplanEdit /\v^\s*setportpathcost\ze\s+[A-Za-z0-9][A-Za-z0-9_.-]{0,15}\s+[0-9]{1,10}\s+[0-9]{1,10}\s*$/ contains=mstplanScope nextgroup=@mstplanArgument skipwhite
syn match mstplanEdit /\v^\s*setportrestrrole\ze\s+[A-Za-z0-9][A-Za-z0-9_.-]{0,15}\s+[0-9]{1,10}\s+%(yes|no)\s*$/ contains=mstplanScope nextgroup=@mstplanArgument skipwhite
syn match mstplanEdit /\v^\s*settreeportcost\ze\s+[A-Za-z0-9][A-Za-z0-9_.-]{0,15}\s+[0-9]{1,10}\s+[0-9]{1,10}\s+[0-9]{1,10}\s*$/ contains=mstplanScope nextgroup=@mstplanArgument skipwhite
syn match mstplanEdit /\v^\s*setmstconfid\ze\s+[A-Za-z0-9][A-Za-z0-9_.-]{0,15}\s+[0-9]{1,10}\s+[!-~]{1,32}\s*$/ contains=mstplanScope nextgroup=@mstplanArgument skipwhite
syn match mstplanEdit /\v^\s*setvid2mstid\ze\s+[A-Za-z0-9][A-Za-z0-9_.-]{0,15}\s+[0-9]{1,10}\s+[0-9]{1,10}%(-[0-9]{1,10})?%(,[0-9]{1,10}%(-[0-9]{1,10})?)*\s*$/ contains=mstplanScope nextgroup=@mstplanArgument skipwhite
syn match mstplanEdit /\v^\s*setmaxhops\ze\s+[A-Za-z0-9][A-Za-z0-9_.-]{0,15}\s+[0-9]{1,10}\s*$/ contains=mstplanScope nextgroup=@mstplanArgument skipwhite
syn match mstplanEdit /\v^\s*setmaxage\ze\s+[A-Za-z0-9][A-Za-z0-9_.-]{0,15}\s+[0-9]{1,10}\s*$/ contains=mstplanScope nextgroup=@mstplanArgument skipwhite
syn match mstplanEdit /\v^\s*setportvlans\ze\s+[A-Za-z0-9][A-Za-z0-9_.-]{0,15}\s+[0-9]{1,10}\s+%([0-9]{1,10}%(-[0-9]{1,10})?%(,[0-9]{1,10}%(-[0-9]{1,10})?)*|all|none)\s*$/ contains=mstplanScope nextgroup=@mstplanArgument skipwhite
syn match mstplanQuery /\v^\s*showplan\ze\s*$/ contains=mstplanScope nextgroup=@mstplanArgument skipwhite
syn match mstplanQuery /\v^\s*showlag\ze\s*$/ contains=mstplanScope nextgroup=@mstplanArgument skipwhite
syn match mstplanQuery /\v^\s*showregions\ze\s*$/ contains=mstplanScope nextgroup=@mstplanArgument skipwhite
syn match mstplanQuery /\v^\s*shownotes\ze\s*$/ contains=mstplanScope nextgroup=@mstplanArgument skipwhite
syn match mstplanQuery /\v^\s*showtree\ze\s+[0-9]{1,10}\s*$/ contains=mstplanScope nextgroup=@mstplanArgument skipwhite
syn match mstplanQuery /\v^\s*showvlan\ze\s+[0-9]{1,10}\s*$/ contains=mstplanScope nextgroup=@mstplanArgument skipwhite
syn match mstplanQuery /\v^\s*showmstconfid\ze\s+[A-Za-z0-9][A-Za-z0-9_.-]{0,15}\s*$/ contains=mstplanScope nextgroup=@mstplanArgument skipwhite
syn match mstplanQuery /\v^\s*mark\ze\s*$/ contains=mstplanScope nextgroup=@mstplanArgument skipwhite
syn match mstplanQuery /\v^\s*changes\ze\s*$/ contains=mstplanScope nextgroup=@mstplanArgument skipwhite
syn match mstplanQuery /\v^\s*save\ze\s*$/ contains=mstplanScope nextgroup=@mstplanArgument skipwhite
syn match mstplanQuery /\v^\s*digest\ze\s*$/ contains=mstplanScope nextgroup=@mstplanArgument skipwhite
syn match mstplanName /\S\+/ contained nextgroup=@mstplanArgument skipwhite
syn match mstplanNumber /\v[0-9,-]+\ze%(\s|$)/ contained nextgroup=@mstplanArgument skipwhite
syn match mstplanAddress /\v[0-9A-Fa-f]{2}%([:-][0-9A-Fa-f]{2}){5}\ze%(\s|$)/ contained nextgroup=@mstplanArgument skipwhite
syn match mstplanWord /\v%(down|mstp|no|off|on|rstp|up|yes)%(,%(down|mstp|no|off|on|rstp|up|yes))*\ze%(\s|$)/ contained nextgroup=@mstplanArgument skipwhite
syn cluster mstplanArgument contains=mstplanName,mstplanNumber,mstplanAddress,mstplanWord
syn match mstplanComment /^\s*#.*$/
syn match mstplanVersion /\v%^\s*mstplan\s+2\s*$/
hi def link mstplanEdit Statement
hi def link mstplanQuery Function
hi def link mstplanScope PreProc
hi def link mstplanName Identifier
hi def link mstplanNumber Number
hi def link mstplanWord Constant
hi def link mstplanAddress Special
hi def link mstplanComment Comment
hi def link mstplanVersion PreProc
hi def link mstplanWrong Error
hi def link mstplanRest Error
let b:current_syntax = "mstplan"
