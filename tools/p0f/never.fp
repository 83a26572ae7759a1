; Lines that no packet fits by the port's rules, one for each reason that src/reasons.py knows. p0f itself refuses some of them.

[tcp:request]

label = s:unix:Never:request
sig   = *:64:0:*:5840,0:mss:df,id+:0
sig   = *:64:0:1460:5840,*:sok,nop,nop:df,id+:0
sig   = *:64:0:*:5840,*:mss:df,id+,bad:0
sig   = *:64:0:*:5840,15:mss,nop,ws:df,id+:0
sig   = *:64:0:*:5840,7:mss,nop,ws:df,id+,exws:0
sig   = *:64:0:*:5840,*:mss:df,id+,exws:0
sig   = *:64:0:*:5840,*:mss:df,id+,ts1-:0
sig   = *:64:0:*:5840,*:mss:df,id+,ts2+:0
sig   = *:64:0:*:5840,*:mss,nop,nop,sok:df,id+,opt+:0
sig   = *:64:0:*:5840,*:mss,nop,nop,nop,eol+0:df,id+,opt+:0
sig   = *:64:0:*:5840,*:mss,eol+3,mss:df,id+:0
sig   = *:64:0:*:5840,*:mss:df,id+,uptr+,urgf+:0
sig   = *:64:0:*:5840,*:mss:df,id+,ack-:0
sig   = 4:64:0:*:5840,*:mss:df,id+,flow:0
sig   = 6:64:0:*:5840,*:mss:id-:0
sig   = 6:64:0:*:5840,*:mss:0+:0
sig   = 6:64:8:*:5840,*:mss::0
sig   = 4:64:3:*:5840,*:mss:df,id+:0
sig   = 4:64:0:*:5840,*:mss:id+,id-,0+,df,ack-:0
sig   = *:64:0:99:mss*4,*:mss:df,id+:0
sig   = *:64:0:*:mss*4,*:sok,nop,nop:df,id+:0
sig   = *:64:0:1460:mss*46,*:mss:df,id+:0
sig   = *:64:0:1460:mtu*44,*:mss:df,id+:0
sig   = *:64:0:*:%0,*:mss:df,id+:0
sig   = *:64:0:*:mss*0,*:mss:df,id+:0

[tcp:response]

label = s:unix:Never:response
sig   = *:64:0:*:5840,*:mss:df,id+,ack+:0
sig   = *:64:0:*:5840,*:mss,nop,nop,ts:df,id+,ts2+:0
