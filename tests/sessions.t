# Sessions of the debugger.

# Two tasks that jump to themselves.
file loop.s _start: jal x0,0x80000000\n
file busy.set hyper 12\ntask 1 3 0 64 loop.rti\ntask 2 4 0 64 loop.rti\n
# A task that sleeps until tick 7 and then jumps to itself.
file early.s _start: addi x17,x0,2\naddi x10,x0,7\naddi x11,x0,0\necall\njal x0,0x80000010\n
file early.set hyper 10\ntask 5 10 0 64 early.rti\n
# A task that ends at once.
file ended.s _start: ecall\n
file ended.set hyper 1\ntask 1 1 0 64 ended.rti\n
# A task that writes three bytes, and then jumps to itself: auipc x10,0; addi x10,x10,24; addi x11,x0,3; addi x17,x0,1; ecall.
file writer.s _start: auipc x10,0x00000\naddi x10,x10,24\naddi x11,x0,3\naddi x17,x0,1\necall\njal x0,0x80000014\n.word 0x000a6968\n
file writer.set hyper 2\ntask 1 2 0 64 writer.rti\n
# A task whose accesses are split, and which reads a word at 0x80000001: lui x5,0x80000; lw x6,1(x5).
file split.s _start: lui x5,0x80000\nlw x6,1(x5)\n
file split.set hyper 12\ntask-split 1 3 0 64 split.rti\n
# A task that reserves 2 ticks of 3 in place of its 1, sleeps until tick 21 and then jumps to itself.
file reserves.s _start: addi x17,x0,5\naddi x10,x0,2\necall\naddi x17,x0,2\naddi x10,x0,21\naddi x11,x0,0\necall\njal x0,0x8000001c\n
file reserves.set hyper 12\ntask 1 3 0 64 reserves.rti\n
# The same, but it sleeps until tick 20.
file reserves-early.s _start: addi x17,x0,5\naddi x10,x0,2\necall\naddi x17,x0,2\naddi x10,x0,20\naddi x11,x0,0\necall\njal x0,0x8000001c\n
file reserves-early.set hyper 12\ntask 1 3 0 64 reserves-early.rti\n
# The tasks of busy, of which the first reserves 2 ticks of 3 before it jumps to itself.
file reserves-too-much.s _start: addi x17,x0,5\naddi x10,x0,2\necall\njal x0,0x8000000c\n
file reserves-too-much.set hyper 12\ntask 1 3 0 64 reserves-too-much.rti\ntask 2 4 0 64 loop.rti\n
# A task of 1 tick of 3 that counts in x5, stores the count at 0x8000003c and writes its four bytes, 8 ticks a round.
file alone.s _start: addi x5,x5,1\nlui x6,0x80000\nsw x5,60(x6)\naddi x17,x0,1\naddi x10,x6,60\naddi x11,x0,4\necall\njal x0,0x80000000\n
file alone.set hyper 12\ntask 1 3 0 64 alone.rti\n
# The same beside a task of 2 ticks of 4 that jumps to itself.
file beside.set hyper 12\ntask 1 3 0 64 alone.rti\ntask 2 4 0 64 loop.rti\n

case steps, stops and ways back
$ rt_sim debug early.rts
> step 5                   tick 5 next idle
> server 0                 task 0 asleep 7 c 1 d 10 q 5 p 10
> back 3                   tick 2 next 0 80000008
> server 0                 task 0 active c 3 d 10 q 5 p 10
> back 9                   refused 5 BeforeStart
> step 3                   tick 5 next idle
> break 0 0x80000010       break 1 0 80000010
> continue                 stop 1 tick 7 next 0 80000010
> continue                 stop 1 tick 8 next 0 80000010
> delete 2                 refused 6 NoSuchStop
> quit
> where

case a system of version Two
# a system of version Two; the bytes from 0x80000001 on are 02 00 80 03
$ rt_sim debug split.rts
> step 2                   tick 2 next 0 80000008
> regs 0                   pc 80000008 regs x5=80000000 x6=03800002
> back 1                   tick 1 next 0 80000004
> step                     tick 2 next 0 80000008
> regs 0                   pc 80000008 regs x5=80000000 x6=03800002

case stops at events
# Of naps, task 0 runs the ticks 0 to 2, where it sleeps till 12, 12 and 13, where it sleeps till 24, 24 and 25, where it ends; task 1 runs all
# others, and uses up its budget of 4 behind ticks 6, 10, 16, 20, 26.. Alone, with a start at 5, task 0 sleeps till 12 at tick 7.
file nap.s _start: addi x10,x0,12\naddi x17,x0,2\necall\naddi x10,x0,24\necall\naddi x17,x0,0\necall\n
file naps.set hyper 12\ntask 3 6 0 64 nap.rti\ntask 4 12 0 64 loop.rti\n
file late.set hyper 10\ntask 4 10 5 64 nap.rti\n
file bad.s _start: addi x0,x0,0\n.word 0\n
file bad.set hyper 1\ntask 1 1 0 64 bad.rti\n
$ rt_sim debug naps.rts
> stop wake                stop wake
> continue                 wake: task 0
  tick 12 next 0 8000000c
> continue                 wake: task 0
  tick 24 next 0 80000014
> unstop wake              unstop wake
> back 24                  tick 0 next 0 80000000
> stop dispatch 1          stop dispatch 1
> stop postponed           stop postponed
> continue                 dispatch: task 1
  tick 3 next 1 80000000
> continue                 postponed: task 1
  tick 7 next 1 80000000
> continue                 postponed: task 1
  tick 11 next 1 80000000
> continue 2               no stop tick 13 next 0 80000010
> continue                 dispatch: task 1
  tick 14 next 1 80000000
> unstop dispatch          unstop dispatch
> unstop postponed         unstop postponed
> stop finish 0            stop finish 0
> break 0 0x80000018       break 1 0 80000018
> continue                 stop 1 tick 25 next 0 80000018
> continue                 finish: task 0 job 2
  tick 26 next 1 80000000
> stop fault               stop fault
> continue 100             no stop tick 126 next 1 80000000
> back 126                 tick 0 next 0 80000000
# what happened goes before the stop that comes
> break 1 0x80000000       break 2 1 80000000
> stop dispatch            stop dispatch
> continue                 dispatch: task 1
  tick 3 next 1 80000000
> continue                 stop 2 tick 4 next 1 80000000
> stop sleep               refused 1 UnknownCommand
> stop wake 01             refused 1 UnknownCommand
> stop wake x              refused 2 UnknownTask
> stop wake 2              refused 2 UnknownTask
> unstop wake 1            unstop wake 1
$ rt_sim debug late.rts
> stop dispatch            stop dispatch
> continue                 dispatch: task 0
  tick 5 next 0 80000000
> stop wake 0              stop wake 0
> continue                 wake: task 0
  tick 12 next 0 8000000c
$ rt_sim debug bad.rts
> stop fault               stop fault
> continue                 fault: task 0
  tick 2 next idle

case stops at events of a task by its name
# Of watch, task 0 runs the ticks 0 to 2, where it sleeps till 12, and task 1 the others up to 12; it uses up its budget of 4 behind ticks 6 and
# 10. Of twins, task 1 runs the ticks 0 to 2, where it sleeps till 12: then its deadline is 18, and those of the others are 24 and more.
file nap.s _start: addi x10,x0,12\naddi x17,x0,2\necall\naddi x10,x0,24\necall\naddi x17,x0,0\necall\n
file spin.s spin: _start: jal x0,0x80000000\n
file watch.set hyper 12\ntask 3 6 0 64 nap.rti\ntask 4 12 0 64 spin.rti\n
file twins.set hyper 12\ntask 3 12 0 64 spin.rti\ntask 3 6 0 64 nap.rti\ntask 2 12 0 64 spin.rti\n
$ rt_sim debug watch.rts
> stop postponed spin      stop postponed 1
> stop dispatch 1          stop dispatch 1
> continue                 dispatch: task 1
  tick 3 next 1 80000000
> unstop dispatch spin     unstop dispatch 1
> stop wake task0          stop wake 0
> continue                 postponed: task 1
  tick 7 next 1 80000000
> unstop postponed 1       unstop postponed 1
> continue                 wake: task 0
  tick 12 next 0 8000000c
> unstop wake task0        unstop wake 0
> stop finish task1        refused 2 UnknownTask
> stop finish spinner      refused 2 UnknownTask
> stop finish spi          refused 2 UnknownTask
> stop spin                refused 1 UnknownCommand
> stop finish spin 1       refused 1 UnknownCommand
> stop finish spin-        refused 1 UnknownCommand
> continue 20              no stop tick 32 next 1 80000000
$ rt_sim debug twins.rts
> stop dispatch spin       refused 2 UnknownTask
> unstop dispatch spin     refused 2 UnknownTask
> stop dispatch task1      stop dispatch 1
> continue                 dispatch: task 1
  tick 12 next 1 8000000c

case stops where jobs finish and are over
# Of naps, task 1's first job, of tick 0, is open for ever, and its period is 12. Alone, task 0 of slow has a period of 4: its first job is over
# behind tick 3, and sleeps till 1 at tick 6, so that the second one is over at once.
file nap.s _start: addi x10,x0,12\naddi x17,x0,2\necall\naddi x10,x0,24\necall\naddi x17,x0,0\necall\n
file naps.set hyper 12\ntask 3 6 0 64 nap.rti\ntask 4 12 0 64 loop.rti\n
file slow.s _start: addi x17,x0,2\naddi x10,x0,1\nnop\nnop\nnop\nnop\necall\naddi x17,x0,0\necall\n
file slow.set hyper 4\ntask 4 4 0 64 slow.rti\n
$ rt_sim debug naps.rts
> stop over                stop over
> continue                 over: task 1 job 0
  tick 12 next 0 8000000c
> continue 1000            no stop tick 1012 next 1 80000000
> back 1012                tick 0 next 0 80000000
> unstop over 1            unstop over 1
> stop finish              stop finish
> continue                 finish: task 0 job 0
  tick 3 next 1 80000000
> continue                 finish: task 0 job 1
  tick 14 next 1 80000000
> back 3                   tick 11 next 1 80000000
> continue                 finish: task 0 job 1
  tick 14 next 1 80000000
> continue                 finish: task 0 job 2
  tick 26 next 1 80000000
$ rt_sim debug slow.rts
> stop over 0              stop over 0
> continue                 over: task 0 job 0
  tick 4 next 0 80000010
> continue                 over: task 0 job 1
  tick 7 next 0 8000001c
> continue 100             no stop tick 107 next idle
> back 107                 tick 0 next 0 80000000
> stop finish              stop finish
> continue                 over: task 0 job 0
  tick 4 next 0 80000010
> continue                 finish: task 0 job 0
  tick 7 next 0 8000001c
> continue                 finish: task 0 job 1
  tick 9 next idle

case a reserve that a fresh wake takes, seen from both sides of it
$ rt_sim debug reserves.rts
> step 3                   tick 3 next 0 8000000c
> trace 1                  2 0 80000008 00000073 reserve 2
> regs 0                   pc 8000000c regs x17=00000005
> server 0                 task 0 active c 1 d 12 q 1 p 3 pending 2
> step 18                  tick 21 next 0 8000001c
> server 0                 task 0 active c 2 d 24 q 2 p 3
> back 1                   tick 20 next idle
> server 0                 task 0 asleep 21 c 1 d 24 q 1 p 3 pending 2
> break 0 0x8000001c       break 1 0 8000001c
> continue                 stop 1 tick 21 next 0 8000001c
> step 3                   tick 24 next 0 8000001c
> server 0                 task 0 active c 1 d 27 q 2 p 3
> back 4                   tick 20 next idle
> back 18                  tick 2 next 0 80000008
> server 0                 task 0 active c 1 d 9 q 1 p 3
> step 1                   tick 3 next 0 8000000c
> server 0                 task 0 active c 1 d 12 q 1 p 3 pending 2

case a reserve that a kept wake leaves
$ rt_sim debug reserves-early.rts
> step 20                  tick 20 next 0 8000001c
> server 0                 task 0 active c 1 d 24 q 1 p 3 pending 2
> trace 2                  6 0 80000018 00000073 sleep 20
  7 idle 13
> back 18                  tick 2 next 0 80000008
> server 0                 task 0 active c 1 d 9 q 1 p 3

case a reserve that is refused
$ rt_sim debug reserves-too-much.rts
> step 7                   tick 7 next 0 8000000c
> trace 1                  6 0 80000008 00000073 reserve refused
> regs 0                   pc 8000000c regs x10=ffffffff x17=00000005
> server 0                 task 0 active c 1 d 12 q 1 p 3
> back 1                   tick 6 next 0 80000008
> regs 0                   pc 80000008 regs x10=00000002 x17=00000005

case two stops at one place, and one that is deleted
$ rt_sim debug busy.rts
> break 1 0x80000000       break 1 1 80000000
> break 1 2147483648       break 2 1 80000000
> break 0 0x80000000       break 3 0 80000000
> continue                 stop 1 tick 1 next 1 80000000
> delete 1                 deleted 1
> continue 4               stop 2 tick 2 next 1 80000000
> delete 2                 deleted 2
> delete 3                 deleted 3
> continue 2               no stop tick 4 next 1 80000000
> regs 1                   pc 80000000 regs

case an idle system
$ rt_sim debug ended.rts
> step 1099511627776       tick 1099511627776 next idle
> back                     tick 1099511627775 next idle

case a long way on and back
# over so many ticks that positions on the way were dropped; a model in another language gave these replies
$ rt_sim debug busy.rts
> step 4000000             tick 4000000 next 0 80000000
> trace 2                  3999998 1 80000000 0000006f next
  3999999 1 80000000 0000006f next
> back 1                   tick 3999999 next 1 80000000
> server 0                 task 0 active c 1 d 4800003 q 1 p 3
> back 1999999             tick 2000000 next 0 80000000
> server 1                 task 1 active c 2 d 2400004 q 2 p 4
> continue 1               no stop tick 2000001 next 1 80000000
> back 65537               tick 1934464 next 1 80000000
> regs 1                   pc 80000000 regs

case an empty line, and one without an end
$ rt_sim debug busy.rts
>> \n                      refused 1 UnknownCommand
>> \xff\xfe\n              refused 1 UnknownCommand
>> where                   tick 0 next 0 80000000

case one CR before the LF is the line's end too
$ rt_sim debug busy.rts
>> where\r\n               tick 0 next 0 80000000
>> \r\n                    refused 1 UnknownCommand
>> where\r\r\n             refused 1 UnknownCommand
>> step\r                  refused 1 UnknownCommand

case what there is at first
$ rt_sim debug early.rts
> mem 0 0x80000000 4       mem 80000000 93082000
> list 0 0x80000004 2      80000004 00700513 addi x10,x0,7
  80000008 00000593 addi x11,x0,0
> out 0                    out 0
> trace 2                  empty
> step                     tick 1 next 0 80000004
> trace 2                  0 0 80000000 00200893 next

case memory at a symbol
# each word by hand: addi x17,x0,1; ecall; addi x17,x0,0; ecall; then the bytes of `text`
file words.s _start: addi x17,x0,1\necall\nend: addi x17,x0,0\necall\ntext: .word 0x000a6968\n
file words.set hyper 2\ntask 1 2 0 64 words.rti\n
$ rt_sim debug words.rts
> mem 0 text 3             mem 80000010 68690a
> mem 0 0x80000010 3       mem 80000010 68690a
> list 0 end 2             80000008 00000893 addi x17,x0,0
  8000000c 00000073 ecall
> break 0 end              break 1 0 80000008
> mem 0 ends 4             refused 3 UnknownSymbol
> list 0 Text 1            refused 3 UnknownSymbol
> mem 1 text 4             refused 2 UnknownTask
> mem 0 text 49            refused 4 BadAddress
> mem 0 text 48            mem 80000010 68690a000000000000000000000000000000000000000000000000000000000000000000000000000000000000000000
> mem 0 text 0             refused 1 UnknownCommand
> mem 0 text               refused 1 UnknownCommand
> mem 0 te-xt 4            refused 1 UnknownCommand

case a NUL is a byte of its line, as any other
$ rt_sim debug busy.rts
>> whe\0re\n               refused 1 UnknownCommand
>> where\0\n               refused 1 UnknownCommand
>> \0\n                    refused 1 UnknownCommand
> where                    tick 0 next 0 80000000

case registers and an output that aren't empty
$ rt_sim debug writer.rts
> step 4                   tick 4 next 0 80000010
> out 0                    out 0
> regs 0                   pc 80000010 regs x10=80000018 x11=00000003 x17=00000001
> step                     tick 5 next 0 80000014
> out 0                    out 3 68690a
> regs 0                   pc 80000014 regs x10=00000003 x11=00000003 x17=00000001
> mem 0 0x80000018 3       mem 80000018 68690a
> trace 2                  3 0 8000000c 00100893 next
  4 0 80000010 00000073 write 3
> server 0                 task 0 active c 1 d 12 q 1 p 2
> back 2                   tick 3 next 0 8000000c
> out 0                    out 0
>> regs 0                  pc 8000000c regs x10=80000018 x11=00000003

case no line
$ rt_sim debug busy.rts

case lines that are too long are no commands
# so many bytes of a line that begins with `break 0 `, how it goes on to its end, and what is answered to it and to `where` behind it:
# at 512 bytes it still is a command, and the rest of a longer one is none
$ for it in '512 \n' '512 \r\n' '513 \n' '513 \r\n' '514 \n' '515 \r\n' '5000 \n' '20000 \n' '512 where\n' '513 where\n' '514 where\n' '1028 step\r\n'; do
+   (printf 'break 0 '; head -c $((${it% *} - 8)) /dev/zero | tr '\0' x; printf "${it#* }where") | rt_sim debug busy.rts | paste - -
+ done | uniq -c
        2 refused 3 UnknownSymbol	tick 0 next 0 80000000
       10 refused 1 UnknownCommand	tick 0 next 0 80000000
$ head -c 600 /dev/zero | tr '\0' x | rt_sim debug busy.rts
  refused 1 UnknownCommand

case a session of 70,000 lines
$ printf 'where\n%.0s' $(seq 70000) | rt_sim debug busy.rts | uniq -c
    70000 tick 0 next 0 80000000

case others do not enter: one program in two systems
# at its 20 first writes, each after as many records of its own, it is the same; before its write the 20th round has 19 counts behind it
$ for it in alone beside; do
+   (echo break 0 0x80000018; yes 'continue;regs 0;mem 0 0x80000000 64;out 0' | head -20 | tr ';' '\n') | rt_sim debug $it.rts | grep -v '^stop ' > $it
+ done
+ cmp alone beside
+ tail -c 25 beside
  110000001200000013000000

case reserves stay over the way back
# Three tasks of 1 tick of 6, 2 of 8 and 3 of 12. Each asks for a random budget and then sleeps for up to 255 ticks, again and again.
# Ticks 199,982, 100,063 and 34,493 bring a wake of task 0 that takes what is pending. A model in another language gave these replies.
file a.s _start: lui x5,0x12345\naddi x17,x0,5\nslli x6,x5,2\nadd x5,x5,x6\naddi x5,x5,1\nsrli x10,x5,29\necall\naddi x17,x0,4\necall\nsrli x6,x5,24\nadd x10,x10,x6\naddi x17,x0,2\necall\njal x0,0x80000004\n
file b.s _start: lui x5,0x6789a\naddi x17,x0,5\nslli x6,x5,2\nadd x5,x5,x6\naddi x5,x5,3\nsrli x10,x5,28\necall\naddi x17,x0,4\necall\nsrli x6,x5,24\nadd x10,x10,x6\naddi x17,x0,2\necall\njal x0,0x80000004\n
file c.s _start: lui x5,0xbcdef\naddi x17,x0,5\nslli x6,x5,2\nadd x5,x5,x6\naddi x5,x5,5\nsrli x10,x5,28\necall\naddi x17,x0,4\necall\nsrli x6,x5,24\nadd x10,x10,x6\naddi x17,x0,2\necall\njal x0,0x80000004\n
file in.set hyper 24\ntask 1 6 0 64 a.rti\ntask 2 8 0 64 b.rti\ntask 3 12 0 64 c.rti\n
$ rt_sim debug in.rts
> step 200000              tick 200000 next idle
> server 0                 task 0 asleep 200146 c 3 d 200006 q 4 p 6 pending 4
> server 2                 task 2 asleep 200209 c 1 d 225785 q 1 p 12 pending 1
> back 18                  tick 199982 next 0 80000034
> server 0                 task 0 active c 4 d 199988 q 4 p 6
> back 1                   tick 199981 next idle
> server 0                 task 0 asleep 199982 c 1 d 199883 q 2 p 6 pending 4
> back 99981               tick 100000 next idle
> server 0                 task 0 asleep 100063 c 1 d 100040 q 1 p 6 pending 4
> server 1                 task 1 asleep 100165 c 1 d 100028 q 2 p 8
> step 63                  tick 100063 next 0 80000034
> server 0                 task 0 active c 4 d 100069 q 4 p 6
> back 65599               tick 34464 next 1 8000001c
> server 0                 task 0 asleep 34493 c 2 d 34399 q 3 p 6 pending 3
> step 29                  tick 34493 next 0 80000034
> server 0                 task 0 active c 3 d 34499 q 3 p 6

case outputs stay over the way back
# It writes its first three bytes at tick 3, and then jumps to itself.
file a.s _start: addi x17,x0,1\naddi x11,x0,3\nlui x10,0x80000\necall\njal x0,0x80000010\n
file in.set hyper 1\ntask 1 1 0 64 a.rti\n
$ rt_sim debug in.rts
> step 200000              tick 200000 next 0 80000010
> back 1                   tick 199999 next 0 80000010
> out 0                    out 3 930810
> trace 1                  199998 0 80000010 0000006f next
> back 99999               tick 100000 next 0 80000010
> out 0                    out 3 930810
> back 99997               tick 3 next 0 8000000c
> out 0                    out 0
> step 1                   tick 4 next 0 80000010
> out 0                    out 3 930810

case lines that are no command
file lines \n \nsteps\nStep\n step\nstep \nstep  1\nstep 0\nstep 01\nstep 1099511627777\nstep 1 2\nback -1\ncontinue x\nwhere 0\nregs\nserver 4294967296\nmem 99 0x80000000 0\nmem 0 0x80000000 257\nmem 0 -4 4\nlist 0 0 65\nlist 0 0 4 4\ntrace 0\nbreak 0\nbreak 0 0x\nbreak 0 012\nbreak 0 5x\n
$ rt_sim debug busy.rts < lines | uniq -c
       26 refused 1 UnknownCommand
