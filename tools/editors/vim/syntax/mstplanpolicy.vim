" Syntax of mstplan's files, made by docs/syntax.py
if exists("b:current_syntax")
  finish
endif
syn case match
syn match mstplanpolicyWrong /^\s*\S.*$/
syn match mstplanpolicyRest /\s*\S.*$/ contained
syn match mstplanpolicyEdit /\v^\s*%(%(finally)\s+)?%(%(always|after\s+%(lan|bridge|risk)\s+%([A-Za-z0-9][A-Za-z0-9_.-]{0,15}\*?|\*)%(,%([A-Za-z0-9][A-Za-z0-9_.-]{0,15}\*?|\*))*)\s+)?%(root|region|role|reach|apart|leaves|together|leaf|depth|hops|via|carries|avoids|fits|risk)\ze%(\s|$)/ nextgroup=mstplanpolicyRest
syn match mstplanpolicyEdit /\v^\s*%(%(finally)\s+)?%(%(always|after\s+%(lan|bridge|risk)\s+%([A-Za-z0-9][A-Za-z0-9_.-]{0,15}\*?|\*)%(,%([A-Za-z0-9][A-Za-z0-9_.-]{0,15}\*?|\*))*)\s+)?root\ze\s+[0-9]{1,10}\s+[A-Za-z0-9][A-Za-z0-9_.-]{0,15}\s*$/ contains=mstplanpolicyScope nextgroup=@mstplanpolicyArgument skipwhite
syn match mstplanpolicyEdit /\v^\s*%(%(finally)\s+)?%(%(always|after\s+%(lan|bridge|risk)\s+%([A-Za-z0-9][A-Za-z0-9_.-]{0,15}\*?|\*)%(,%([A-Za-z0-9][A-Za-z0-9_.-]{0,15}\*?|\*))*)\s+)?root\ze\s+[0-9]{1,10}\s+[A-Za-z0-9][A-Za-z0-9_.-]{0,15}\s+next\s+[A-Za-z0-9][A-Za-z0-9_.-]{0,15}\s*$/ contains=mstplanpolicyScope nextgroup=@mstplanpolicyArgument skipwhite
syn match mstplanpolicyEdit /\v^\s*%(%(finally)\s+)?%(%(always|after\s+%(lan|bridge|risk)\s+%([A-Za-z0-9][A-Za-z0-9_.-]{0,15}\*?|\*)%(,%([A-Za-z0-9][A-Za-z0-9_.-]{0,15}\*?|\*))*)\s+)?region\ze\s+%([A-Za-z0-9][A-Za-z0-9_.-]{0,15}\*?|\*)%(,%([A-Za-z0-9][A-Za-z0-9_.-]{0,15}\*?|\*))*\s*$/ contains=mstplanpolicyScope nextgroup=@mstplanpolicyArgument skipwhite
syn match mstplanpolicyEdit /\v^\s*%(%(finally)\s+)?%(%(always|after\s+%(lan|bridge|risk)\s+%([A-Za-z0-9][A-Za-z0-9_.-]{0,15}\*?|\*)%(,%([A-Za-z0-9][A-Za-z0-9_.-]{0,15}\*?|\*))*)\s+)?role\ze\s+[0-9]{1,10}\s+%([A-Za-z0-9][A-Za-z0-9_.-]{0,15}\*?|\*):%([0-9]{1,10}|\*)%(,%([A-Za-z0-9][A-Za-z0-9_.-]{0,15}\*?|\*):%([0-9]{1,10}|\*))*\s+%(Root|Designated|Alternate|Backup|Master|Disabled)%(,%(Root|Designated|Alternate|Backup|Master|Disabled))*\s*$/ contains=mstplanpolicyScope nextgroup=@mstplanpolicyArgument skipwhite
syn match mstplanpolicyEdit /\v^\s*%(%(finally)\s+)?%(%(always|after\s+%(lan|bridge|risk)\s+%([A-Za-z0-9][A-Za-z0-9_.-]{0,15}\*?|\*)%(,%([A-Za-z0-9][A-Za-z0-9_.-]{0,15}\*?|\*))*)\s+)?reach\ze\s+[0-9]{1,10}%(-[0-9]{1,10})?%(,[0-9]{1,10}%(-[0-9]{1,10})?)*\s+%([A-Za-z0-9][A-Za-z0-9_.-]{0,15}\*?|\*)%(,%([A-Za-z0-9][A-Za-z0-9_.-]{0,15}\*?|\*))*\s*$/ contains=mstplanpolicyScope nextgroup=@mstplanpolicyArgument skipwhite
syn match mstplanpolicyEdit /\v^\s*%(%(finally)\s+)?%(%(always|after\s+%(lan|bridge|risk)\s+%([A-Za-z0-9][A-Za-z0-9_.-]{0,15}\*?|\*)%(,%([A-Za-z0-9][A-Za-z0-9_.-]{0,15}\*?|\*))*)\s+)?apart\ze\s+[0-9]{1,10}%(-[0-9]{1,10})?%(,[0-9]{1,10}%(-[0-9]{1,10})?)*\s+%([A-Za-z0-9][A-Za-z0-9_.-]{0,15}\*?|\*)%(,%([A-Za-z0-9][A-Za-z0-9_.-]{0,15}\*?|\*))*\s+%([A-Za-z0-9][A-Za-z0-9_.-]{0,15}\*?|\*)%(,%([A-Za-z0-9][A-Za-z0-9_.-]{0,15}\*?|\*))*\s*$/ contains=mstplanpolicyScope nextgroup=@mstplanpolicyArgument skipwhite
syn match mstplanpolicyEdit /\v^\s*leaves\ze\s+[0-9]{1,10}%(-[0-9]{1,10})?%(,[0-9]{1,10}%(-[0-9]{1,10})?)*\s+%([A-Za-z0-9][A-Za-z0-9_.-]{0,15}\*?|\*)%(,%([A-Za-z0-9][A-Za-z0-9_.-]{0,15}\*?|\*))*\s*$/ contains=mstplanpolicyScope nextgroup=@mstplanpolicyArgument skipwhite
syn match mstplanpolicyEdit /\v^\s*%(%(finally)\s+)?%(%(always|after\s+%(lan|bridge|risk)\s+%([A-Za-z0-9][A-Za-z0-9_.-]{0,15}\*?|\*)%(,%([A-Za-z0-9][A-Za-z0-9_.-]{0,15}\*?|\*))*)\s+)?together\ze\s+[0-9]{1,10}%(-[0-9]{1,10})?%(,[0-9]{1,10}%(-[0-9]{1,10})?)*\s+%([A-Za-z0-9][A-Za-z0-9_.-]{0,15}\*?|\*)%(,%([A-Za-z0-9][A-Za-z0-9_.-]{0,15}\*?|\*))*\s*$/ contains=mstplanpolicyScope nextgroup=@mstplanpolicyArgument skipwhite
syn match mstplanpolicyEdit /\v^\s*%(%(finally)\s+)?%(%(always|after\s+%(lan|bridge|risk)\s+%([A-Za-z0-9][A-Za-z0-9_.-]{0,15}\*?|\*)%(,%([A-Za-z0-9][A-Za-z0-9_.-]{0,15}\*?|\*))*)\s+)?leaf\ze\s+[0-9]{1,10}\s+%([A-Za-z0-9][A-Za-z0-9_.-]{0,15}\*?|\*)%(,%([A-Za-z0-9][A-Za-z0-9_.-]{0,15}\*?|\*))*\s*$/ contains=mstplanpolicyScope nextgroup=@mstplanpolicyArgument skipwhite
syn match mstplanpolicyEdit /\v^\s*%(%(finally)\s+)?%(%(always|after\s+%(lan|bridge|risk)\s+%([A-Za-z0-9][A-Za-z0-9_.-]{0,15}\*?|\*)%(,%([A-Za-z0-9][A-Za-z0-9_.-]{0,15}\*?|\*))*)\s+)?depth\ze\s+[0-9]{1,10}\s+[0-9]{1,10}\s*$/ contains=mstplanpolicyScope nextgroup=@mstplanpolicyArgument skipwhite
syn match mstplanpolicyEdit /\v^\s*%(%(finally)\s+)?%(%(always|after\s+%(lan|bridge|risk)\s+%([A-Za-z0-9][A-Za-z0-9_.-]{0,15}\*?|\*)%(,%([A-Za-z0-9][A-Za-z0-9_.-]{0,15}\*?|\*))*)\s+)?hops\ze\s+[0-9]{1,10}%(-[0-9]{1,10})?%(,[0-9]{1,10}%(-[0-9]{1,10})?)*\s+[0-9]{1,10}\s+%([A-Za-z0-9][A-Za-z0-9_.-]{0,15}\*?|\*)%(,%([A-Za-z0-9][A-Za-z0-9_.-]{0,15}\*?|\*))*\s*$/ contains=mstplanpolicyScope nextgroup=@mstplanpolicyArgument skipwhite
syn match mstplanpolicyEdit /\v^\s*%(%(finally)\s+)?%(%(always|after\s+%(lan|bridge|risk)\s+%([A-Za-z0-9][A-Za-z0-9_.-]{0,15}\*?|\*)%(,%([A-Za-z0-9][A-Za-z0-9_.-]{0,15}\*?|\*))*)\s+)?via\ze\s+[0-9]{1,10}%(-[0-9]{1,10})?%(,[0-9]{1,10}%(-[0-9]{1,10})?)*\s+[A-Za-z0-9][A-Za-z0-9_.-]{0,15}\s+[A-Za-z0-9][A-Za-z0-9_.-]{0,15}\s+[A-Za-z0-9][A-Za-z0-9_.-]{0,15}\s*$/ contains=mstplanpolicyScope nextgroup=@mstplanpolicyArgument skipwhite
syn match mstplanpolicyEdit /\v^\s*%(%(finally)\s+)?%(%(always|after\s+%(lan|bridge|risk)\s+%([A-Za-z0-9][A-Za-z0-9_.-]{0,15}\*?|\*)%(,%([A-Za-z0-9][A-Za-z0-9_.-]{0,15}\*?|\*))*)\s+)?carries\ze\s+[A-Za-z0-9][A-Za-z0-9_.-]{0,15}\s+[0-9]{1,10}%(-[0-9]{1,10})?%(,[0-9]{1,10}%(-[0-9]{1,10})?)*\s*$/ contains=mstplanpolicyScope nextgroup=@mstplanpolicyArgument skipwhite
syn match mstplanpolicyEdit /\v^\s*%(%(finally)\s+)?%(%(always|after\s+%(lan|bridge|risk)\s+%([A-Za-z0-9][A-Za-z0-9_.-]{0,15}\*?|\*)%(,%([A-Za-z0-9][A-Za-z0-9_.-]{0,15}\*?|\*))*)\s+)?avoids\ze\s+[A-Za-z0-9][A-Za-z0-9_.-]{0,15}\s+[0-9]{1,10}%(-[0-9]{1,10})?%(,[0-9]{1,10}%(-[0-9]{1,10})?)*\s*$/ contains=mstplanpolicyScope nextgroup=@mstplanpolicyArgument skipwhite
syn match mstplanpolicyEdit /\v^\s*%(%(finally)\s+)?%(%(always|after\s+%(lan|bridge|risk)\s+%([A-Za-z0-9][A-Za-z0-9_.-]{0,15}\*?|\*)%(,%([A-Za-z0-9][A-Za-z0-9_.-]{0,15}\*?|\*))*)\s+)?fits\ze\s*$/ contains=mstplanpolicyScope nextgroup=@mstplanpolicyArgument skipwhite
syn match mstplanpolicyEdit /\v^\s*risk\ze\s+[A-Za-z0-9][A-Za-z0-9_.-]{0,15}\s+%(lan|bridge)\s+%([A-Za-z0-9][A-Za-z0-9_.-]{0,15}\*?|\*)%(,%([A-Za-z0-9][A-Za-z0-9_.-]{0,15}\*?|\*))*\s*$/ contains=mstplanpolicyScope nextgroup=@mstplanpolicyArgument skipwhite
syn match mstplanpolicyScope /\v<%(finally|always|after\s+%(lan|bridge|risk)\s+\S+)\ze\s/ contained
syn match mstplanpolicyName /\S\+/ contained nextgroup=@mstplanpolicyArgument skipwhite
syn match mstplanpolicyNumber /\v[0-9,-]+\ze%(\s|$)/ contained nextgroup=@mstplanpolicyArgument skipwhite
syn match mstplanpolicyAddress /\v[0-9A-Fa-f]{2}%([:-][0-9A-Fa-f]{2}){5}\ze%(\s|$)/ contained nextgroup=@mstplanpolicyArgument skipwhite
syn match mstplanpolicyWord /\v%(Alternate|Backup|Designated|Disabled|Master|Root|bridge|lan|next)%(,%(Alternate|Backup|Designated|Disabled|Master|Root|bridge|lan|next))*\ze%(\s|$)/ contained nextgroup=@mstplanpolicyArgument skipwhite
syn cluster mstplanpolicyArgument contains=mstplanpolicyName,mstplanpolicyNumber,mstplanpolicyAddress,mstplanpolicyWord
syn match mstplanpolicyComment /^\s*#.*$/
hi def link mstplanpolicyEdit Statement
hi def link mstplanpolicyQuery Function
hi def link mstplanpolicyScope PreProc
hi def link mstplanpolicyName Identifier
hi def link mstplanpolicyNumber Number
hi def link mstplanpolicyWord Constant
hi def link mstplanpolicyAddress Special
hi def link mstplanpolicyComment Comment
hi def link mstplanpolicyVersion PreProc
hi def link mstplanpolicyWrong Error
hi def link mstplanpolicyRest Error
let b:current_syntax = "mstplanpolicy"
