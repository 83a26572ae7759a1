; Lines of our own, for what no line of p0f.fp asks: a generic line before a specific one, or behind one that fits fuzzily, a modulus,
; multiples of an MTU, option lengths, TTLs of two parts, payload classes, and the quirks that p0f.fp does not use.
classes = win,unix,other

[tcp:request]

label = g:unix:Own:generic first
sig   = *:64:0:*:*,*:mss:df,id+:0

label = s:unix:Own:specific later
sig   = *:64:0:*:5840,*:mss:df,id+:0

label = s:unix:Own:version
sig   = 4:64:0:*:*,*:mss,nop,nop,nop,nop::0

label = s:unix:Own:absent
sig   = *:64:0:*:*,0:mss,nop,nop,nop,nop:df:0
sig   = *:64:0:0:*,*:sok,nop,nop:df:0

label = s:unix:Own:window
sig   = *:64:0:*:%8192,*:mss,nop,ws:df,id+:0
sig   = *:64:0:*:mtu*4,*:mss,nop,ws:df,id+:0

label = s:unix:Own:lengths
sig   = 4:54+10:8:*:*,*:mss,sok,nop,nop:df,id+:*
sig   = *:32:0:*:*,*:mss,nop,nop,sok:df,id+:+

label = s:unix:Own:quirks
sig   = 4:64:0:*:*,*:mss,sok,nop,nop:id-,0+:0
sig   = *:64:0:*:*,*:mss,sok,nop,nop:flow,seq-:0
sig   = 6:64:0:*:*,*:mss,sok,nop,nop:flow:0
sig   = *:64:0:*:*,*:mss,sok,nop,nop:df,id+,ack+,uptr+:0
sig   = *:64:0:*:*,*:mss,sok,nop,nop:df,id+,urgf+,pushf+:0
sig   = *:64:0:*:*,*:nop,nop,ts:df,id+,ts1-,ts2+:0
sig   = *:64:0:*:*,*:mss,nop,eol+2:df,id+,opt+:0
sig   = *:64:0:*:*,*:nop,ws,mss:df,id+,exws:0
sig   = *:64:0:*:*,*:nop,nop,mss,sok:df,id+,bad:0
sig   = *:64:0:*:*,*:mss,?77:df,id+:0

label = s:!:Own:tool
sys   = @unix,@win
sig   = *:64:0:*:4321,*:mss,nop,nop,ts,?99:df,id+:0

label = s:unix:Own:fuzzy first
sig   = *:32:0:*:*,*:mss,?66:df,id+:0

label = g:unix:Own:generic between
sig   = *:64:0:*:*,*:mss,?66:df,id+:0
sig   = *:64:0:*:mss*4,*:mss,?66:df,id+:0

label = s:unix:Own:specific last
sig   = *:64:0:*:5840,*:mss,?66:df,id+:0

[tcp:response]

label = g:unix:Own:generic first
sig   = *:64:0:*:*,*:mss:df,id+:0

label = s:unix:Own:specific later
sig   = *:64:0:*:mss*4,*:mss:df,id+:0

label = s:unix:Own:quirks
sig   = *:255:0:*:mtu*2,*:mss,sok,nop,nop:df,ack-:0
sig   = *:64:0:*:*,*:nop,nop,ts:df,id+,ts1-:0
sig   = *:64:0:*:*,*:nop,nop,mss,sack:df,id+:0
