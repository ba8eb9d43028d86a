# Runs, worked out by hand: what each tick does, and what the last one leaves.

file loop.s _start: jal x0,0x80000000\n
file two.s _start: addi x1,x0,-1\njal x0,0x80000004\n
file yield.s _start: addi x17,x0,3\necall\n
file until7.s _start: addi x17,x0,2\naddi x10,x0,7\naddi x11,x0,0\necall\njal x0,0x80000010\n
file until8.s _start: addi x17,x0,2\naddi x10,x0,8\naddi x11,x0,0\necall\njal x0,0x80000010\n
file until9.s _start: addi x17,x0,2\naddi x10,x0,9\naddi x11,x0,0\necall\njal x0,0x80000010\n
file end.s _start: ecall\n

case two-word loop
$ rt_sim solo two.rti --ticks 3
  0 0 80000000 fff00093 next
  1 0 80000004 0000006f next
  2 0 80000004 0000006f next
  after 3
  task 0 active pc 80000004
  regs x1=ffffffff
  out 0

case two busy tasks
file in.set hyper 12\ntask 1 3 0 64 loop.rti\ntask 2 4 0 64 loop.rti\n
$ rt_sim run in.rts --ticks 12
  0 0 80000000 0000006f next
  1 1 80000000 0000006f next
  2 1 80000000 0000006f next
  3 0 80000000 0000006f next
  4 1 80000000 0000006f next
  5 1 80000000 0000006f next
  6 0 80000000 0000006f next
  7 0 80000000 0000006f next
  8 1 80000000 0000006f next
  9 1 80000000 0000006f next
  10 0 80000000 0000006f next
  11 1 80000000 0000006f next
  after 12
  task 0 active c 1 d 18 pc 80000000
  regs
  out 0
  task 1 active c 1 d 16 pc 80000000
  regs
  out 0

case sleep until 7, kept
file in.set hyper 10\ntask 5 10 0 64 until7.rti\n
$ rt_sim run in.rts --ticks 7
  0 0 80000000 00200893 next
  1 0 80000004 00700513 next
  2 0 80000008 00000593 next
  3 0 8000000c 00000073 sleep 7
  4 idle 3
  after 7
  task 0 active c 1 d 10 pc 80000010
  regs x10=00000007 x17=00000002
  out 0

case sleep until 8, fresh
file in.set hyper 10\ntask 5 10 0 64 until8.rti\n
$ rt_sim run in.rts --ticks 8
  0 0 80000000 00200893 next
  1 0 80000004 00800513 next
  2 0 80000008 00000593 next
  3 0 8000000c 00000073 sleep 8
  4 idle 4
  after 8
  task 0 active c 5 d 18 pc 80000010
  regs x10=00000008 x17=00000002
  out 0

case sleep to a tick to come
file in.set hyper 10\ntask 5 10 0 64 loop.rti\ntask 5 10 0 64 until9.rti\n
$ rt_sim run in.rts --ticks 9
  0 0 80000000 0000006f next
  1 0 80000000 0000006f next
  2 0 80000000 0000006f next
  3 0 80000000 0000006f next
  4 0 80000000 0000006f next
  5 1 80000000 00200893 next
  6 1 80000004 00900513 next
  7 1 80000008 00000593 next
  8 1 8000000c 00000073 sleep 9
  after 9
  task 0 active c 5 d 20 pc 80000000
  regs
  out 0
  task 1 active c 5 d 19 pc 80000010
  regs x10=00000009 x17=00000002
  out 0

case sleep to the present tick
file in.set hyper 10\ntask 5 10 0 64 loop.rti\ntask 5 10 0 64 until8.rti\n
$ rt_sim run in.rts --ticks 9
  0 0 80000000 0000006f next
  1 0 80000000 0000006f next
  2 0 80000000 0000006f next
  3 0 80000000 0000006f next
  4 0 80000000 0000006f next
  5 1 80000000 00200893 next
  6 1 80000004 00800513 next
  7 1 80000008 00000593 next
  8 1 8000000c 00000073 sleep 8
  after 9
  task 0 active c 5 d 20 pc 80000000
  regs
  out 0
  task 1 active c 1 d 10 pc 80000010
  regs x10=00000008 x17=00000002
  out 0

case yield
file in.set hyper 10\ntask 5 10 0 64 yield.rti\n
$ rt_sim run in.rts --ticks 2
  0 0 80000000 00300893 next
  1 0 80000004 00000073 yield
  after 2
  task 0 active c 5 d 20 pc 80000008
  regs x17=00000003
  out 0

case yield of the last tick
file in.set hyper 10\ntask 2 10 0 64 yield.rti\n
$ rt_sim run in.rts --ticks 2
  0 0 80000000 00300893 next
  1 0 80000004 00000073 yield
  after 2
  task 0 active c 2 d 20 pc 80000008
  regs x17=00000003
  out 0

case exhausted, asleep
file in.set hyper 10\ntask 4 10 0 64 until7.rti\n
$ rt_sim run in.rts --ticks 4
  0 0 80000000 00200893 next
  1 0 80000004 00700513 next
  2 0 80000008 00000593 next
  3 0 8000000c 00000073 sleep 7
  after 4
  task 0 asleep 7 c 4 d 20 pc 80000010
  regs x10=00000007 x17=00000002
  out 0

case exhausted, kept
file in.set hyper 10\ntask 4 10 0 64 until9.rti\n
$ rt_sim run in.rts --ticks 9
  0 0 80000000 00200893 next
  1 0 80000004 00900513 next
  2 0 80000008 00000593 next
  3 0 8000000c 00000073 sleep 9
  4 idle 5
  after 9
  task 0 active c 4 d 20 pc 80000010
  regs x10=00000009 x17=00000002
  out 0

case exhausted, fresh
file a.s _start: addi x17,x0,2\naddi x10,x0,11\naddi x11,x0,0\necall\njal x0,0x80000010\n
file in.set hyper 10\ntask 4 10 0 64 a.rti\n
$ rt_sim run in.rts --ticks 11
  0 0 80000000 00200893 next
  1 0 80000004 00b00513 next
  2 0 80000008 00000593 next
  3 0 8000000c 00000073 sleep 11
  4 idle 7
  after 11
  task 0 active c 4 d 21 pc 80000010
  regs x10=0000000b x17=00000002
  out 0

case write
file a.s _start: addi x17,x0,1\nlui x10,0x80000\naddi x11,x0,4\necall\n
$ rt_sim solo a.rti --ticks 4
  0 0 80000000 00100893 next
  1 0 80000004 80000537 next
  2 0 80000008 00400593 next
  3 0 8000000c 00000073 write 4
  after 4
  task 0 active pc 80000010
  regs x10=00000004 x11=00000004 x17=00000001
  out 4 93081000

case write of 257 bytes
file a.s _start: addi x17,x0,1\nlui x10,0x80000\naddi x11,x0,257\necall\n
$ rt_sim solo a.rti --ticks 4
  0 0 80000000 00100893 next
  1 0 80000004 80000537 next
  2 0 80000008 10100593 next
  3 0 8000000c 00000073 write refused
  after 4
  task 0 active pc 80000010
  regs x10=ffffffff x11=00000101 x17=00000001
  out 0

case end
$ rt_sim solo end.rti --ticks 2
  0 0 80000000 00000073 end
  1 idle 1
  after 2
  task 0 ended pc 80000004
  regs
  out 0

case no bytes
file a.s _start:\n
$ rt_sim solo a.rti --ticks 1
  0 0 80000000 00000000 fault Illegal
  after 1
  task 0 faulted Illegal pc 80000000
  regs
  out 0
!   task 0: Illegal at _start: 00000000, no instruction: past the program's end?

case not yet started
file in.set hyper 10\ntask 5 10 3 64 loop.rti\n
$ rt_sim run in.rts --ticks 0
  after 0
  task 0 asleep 3 c 0 d 0 pc 80000000
  regs
  out 0

case jump out of RAM
file a.s _start: jalr x0,0(x0)\n
$ rt_sim solo a.rti --ticks 3
  0 0 80000000 00000067 next
  1 0 00000000 -------- fault FetchAccess
  2 idle 1
  after 3
  task 0 faulted FetchAccess pc 00000000
  regs
  out 0
!   task 0: FetchAccess at 00000000: no instruction there, RAM 80000000 to 8000ffff

case sleep until 2^64 - 1
file a.s _start: addi x17,x0,2\naddi x10,x0,-1\naddi x11,x0,-1\necall\n
file in.set hyper 10\ntask 5 10 0 64 a.rti\n
$ rt_sim run in.rts --ticks 12
  0 0 80000000 00200893 next
  1 0 80000004 fff00513 next
  2 0 80000008 fff00593 next
  3 0 8000000c 00000073 sleep 18446744073709551615
  4 idle 8
  after 12
  task 0 asleep 18446744073709551615 c 1 d 10 pc 80000010
  regs x10=ffffffff x11=ffffffff x17=00000002
  out 0

case jump to no multiple of 4
file a.s _start: lui x5,0x80000\njalr x1,3(x5)\n
$ rt_sim solo a.rti --ticks 2
  0 0 80000000 800002b7 next
  1 0 80000004 003280e7 fault JumpMisaligned
  after 2
  task 0 faulted JumpMisaligned pc 80000004
  regs x5=80000000
  out 0
!   task 0: JumpMisaligned at _start+0x4: jalr x1,3(x5): 80000002, no multiple of 4

case jump past bit 0
file a.s _start: lui x5,0x80000\njalr x1,9(x5)\n
$ rt_sim solo a.rti --ticks 2
  0 0 80000000 800002b7 next
  1 0 80000004 009280e7 next
  after 2
  task 0 active pc 80000008
  regs x1=80000008 x5=80000000
  out 0

case branch not taken
file a.s _start: lui x5,0x80000\nbeq x5,x0,0x80000006\n
$ rt_sim solo a.rti --ticks 2
  0 0 80000000 800002b7 next
  1 0 80000004 00028163 next
  after 2
  task 0 active pc 80000008
  regs x5=80000000
  out 0

case branch taken
file a.s _start: lui x5,0x80000\nbne x5,x0,0x80000006\n
$ rt_sim solo a.rti --ticks 2
  0 0 80000000 800002b7 next
  1 0 80000004 00029163 fault JumpMisaligned
  after 2
  task 0 faulted JumpMisaligned pc 80000004
  regs x5=80000000
  out 0
!   task 0: JumpMisaligned at _start+0x4: bne x5,x0,0x80000006: 80000006, no multiple of 4

case last word of RAM
file a.s _start: lui x5,0x80000\nsw x1,12(x5)\n
$ rt_sim solo a.rti --ticks 2 --ram 16
  0 0 80000000 800002b7 next
  1 0 80000004 0012a623 next
  after 2
  task 0 active pc 80000008
  regs x5=80000000
  out 0

case past the end of RAM
file a.s _start: lui x5,0x80000\nsw x1,16(x5)\n
$ rt_sim solo a.rti --ticks 2 --ram 16
  0 0 80000000 800002b7 next
  1 0 80000004 0012a823 fault StoreAccess
  after 2
  task 0 faulted StoreAccess pc 80000004
  regs x5=80000000
  out 0
!   task 0: StoreAccess at _start+0x4: sw x1,16(x5): 80000010, RAM 80000000 to 8000000f

case no multiple of 4
file a.s _start: lui x5,0x80000\nsw x1,17(x5)\n
$ rt_sim solo a.rti --ticks 2 --ram 16
  0 0 80000000 800002b7 next
  1 0 80000004 0012a8a3 fault StoreMisaligned
  after 2
  task 0 faulted StoreMisaligned pc 80000004
  regs x5=80000000
  out 0
!   task 0: StoreMisaligned at _start+0x4: sw x1,17(x5): 80000011, no multiple of 4

case store into code
file a.s _start: lui x5,0x80000\naddi x6,x0,243\nsb x6,13(x5)\naddi x7,x7,1\n
$ rt_sim solo a.rti --ticks 4
  0 0 80000000 800002b7 next
  1 0 80000004 0f300313 next
  2 0 80000008 006286a3 next
  3 0 8000000c 0013f393 next
  after 4
  task 0 active pc 80000010
  regs x5=80000000 x6=000000f3
  out 0

case three wakes at one tick
file in.set hyper 12\ntask 1 3 5 64 loop.rti\ntask 2 6 5 64 loop.rti\ntask 4 12 5 64 loop.rti\n
$ rt_sim run in.rts --ticks 14
  0 idle 5
  5 0 80000000 0000006f next
  6 0 80000000 0000006f next
  7 1 80000000 0000006f next
  8 1 80000000 0000006f next
  9 0 80000000 0000006f next
  10 0 80000000 0000006f next
  11 1 80000000 0000006f next
  12 1 80000000 0000006f next
  13 2 80000000 0000006f next
  after 14
  task 0 active c 1 d 20 pc 80000000
  regs
  out 0
  task 1 active c 2 d 23 pc 80000000
  regs
  out 0
  task 2 active c 3 d 17 pc 80000000
  regs
  out 0

case the last start
file in.set hyper 10\ntask 5 10 4294967295 64 loop.rti\n
$ rt_sim run in.rts --ticks 4294967297
  0 idle 4294967295
  4294967295 0 80000000 0000006f next
  4294967296 0 80000000 0000006f next
  after 4294967297
  task 0 active c 3 d 4294967305 pc 80000000
  regs
  out 0

case changed after it ran
file a.s _start: lui x5,0x80000\naddi x6,x0,243\naddi x7,x7,1\nsb x6,9(x5)\njal x0,0x80000008\n
$ rt_sim solo a.rti --ticks 6
  0 0 80000000 800002b7 next
  1 0 80000004 0f300313 next
  2 0 80000008 00138393 next
  3 0 8000000c 006284a3 next
  4 0 80000010 ff9ff06f next
  5 0 80000008 0013f393 next
  after 6
  task 0 active pc 8000000c
  regs x5=80000000 x6=000000f3 x7=00000001
  out 0

case now at tick 2
file a.s _start: addi x17,x0,4\naddi x11,x0,-1\necall\n
$ rt_sim solo a.rti --ticks 3 --ram 64
  0 0 80000000 00400893 next
  1 0 80000004 fff00593 next
  2 0 80000008 00000073 now 2
  after 3
  task 0 active pc 8000000c
  regs x10=00000002 x17=00000004
  out 0

case now past 2^32
file a.s _start: addi x17,x0,4\naddi x11,x0,-1\naddi x0,x0,0\necall\n
file in.set hyper 10\ntask 5 10 4294967295 64 a.rti\n
$ rt_sim run in.rts --ticks 4294967299
  0 idle 4294967295
  4294967295 0 80000000 00400893 next
  4294967296 0 80000004 fff00593 next
  4294967297 0 80000008 00000013 next
  4294967298 0 8000000c 00000073 now 4294967298
  after 4294967299
  task 0 active c 1 d 4294967305 pc 80000010
  regs x10=00000002 x11=00000001 x17=00000004
  out 0

case load past the end of RAM
file a.s _start: lui x5,0x80000\nlw x6,16(x5)\n
$ rt_sim solo a.rti --ticks 2 --ram 16
  0 0 80000000 800002b7 next
  1 0 80000004 0102a303 fault LoadAccess
  after 2
  task 0 faulted LoadAccess pc 80000004
  regs x5=80000000
  out 0
!   task 0: LoadAccess at _start+0x4: lw x6,16(x5): 80000010, RAM 80000000 to 8000000f

case load at no multiple of 4
file a.s _start: lui x5,0x80000\nlw x6,2(x5)\n
$ rt_sim solo a.rti --ticks 2 --ram 16
  0 0 80000000 800002b7 next
  1 0 80000004 0022a303 fault LoadMisaligned
  after 2
  task 0 faulted LoadMisaligned pc 80000004
  regs x5=80000000
  out 0
!   task 0: LoadMisaligned at _start+0x4: lw x6,2(x5): 80000002, no multiple of 4

case break
file a.s _start: lui x5,0x80000\nebreak\n
$ rt_sim solo a.rti --ticks 2 --ram 16
  0 0 80000000 800002b7 next
  1 0 80000004 00100073 fault Break
  after 2
  task 0 faulted Break pc 80000004
  regs x5=80000000
  out 0
!   task 0: Break at _start+0x4: ebreak

case call 6
file a.s _start: addi x17,x0,6\necall\n
$ rt_sim solo a.rti --ticks 2 --ram 16
  0 0 80000000 00600893 next
  1 0 80000004 00000073 fault UnknownCall
  after 2
  task 0 faulted UnknownCall pc 80000004
  regs x17=00000006
  out 0
!   task 0: UnknownCall at _start+0x4: ecall 6 in a7, calls are 0 to 5

case FENCE with free bits set, and FENCE.I, which is of no row
file a.s _start: .word 0x0000000f\n.word 0x0ff0808f\n.word 0x0000100f\n
$ rt_sim solo a.rti --ticks 4
  0 0 80000000 0000000f next
  1 0 80000004 0ff0808f next
  2 0 80000008 0000100f fault Illegal
  3 idle 1
  after 4
  task 0 faulted Illegal pc 80000008
  regs
  out 0
!   task 0: Illegal at _start+0x8: 0000100f (fence.i: Zifencei)

case a word that is no instruction beside one that is
file a.s _start: srai x1,x1,31\n.word 0x43f0d093\n
$ rt_sim solo a.rti --ticks 2
  0 0 80000000 41f0d093 next
  1 0 80000004 43f0d093 fault Illegal
  after 2
  task 0 faulted Illegal pc 80000004
  regs
  out 0
!   task 0: Illegal at _start+0x4: 43f0d093 (Zba, Zbb or their kin)

case a trillion idle ticks are one step
$ rt_sim solo end.rti --ticks 1099511627776 --ram 4
  0 0 80000000 00000073 end
  1 idle 1099511627775
  after 1099511627776
  task 0 ended pc 80000004
  regs
  out 0

case a budget of one tick is postponed at each tick
file in.set hyper 12\ntask 1 3 0 64 two.rti\n
$ rt_sim run in.rts --ticks 3
  0 0 80000000 fff00093 next
  1 0 80000004 0000006f next
  2 0 80000004 0000006f next
  after 3
  task 0 active c 1 d 12 pc 80000004
  regs x1=ffffffff
  out 0

case yields at each odd tick
file a.s _start: addi x17,x0,3\necall\njal x0,0x80000004\n
file in.set hyper 10\ntask 5 10 0 64 a.rti\n
$ (echo 0 0 80000000 00300893 next; for it in $(seq 1 2 99); do echo $it 0 80000004 00000073 yield; echo $((it + 1)) 0 80000008 ffdff06f next; done | sed '$d'; printf 'after 100\ntask 0 active c 5 d 510 pc 80000008\nregs x17=00000003\nout 0\n') > wanted
+ rt_sim run in.rts --ticks 100 | cmp - wanted

case a word at no multiple of 4, where accesses are split
file a.s _start: lui x5,0x80000\nlw x6,1(x5)\n
file in.set hyper 12\ntask-split 1 3 0 64 a.rti\n
file whole.set hyper 12\ntask 1 3 0 64 a.rti\n
$ rt_sim run in.rts --ticks 2
  0 0 80000000 800002b7 next
  1 0 80000004 0012a303 next
  after 2
  task 0 active c 1 d 9 pc 80000008
  regs x5=80000000 x6=03800002
  out 0
$ rt_sim run whole.rts --ticks 2
  0 0 80000000 800002b7 next
  1 0 80000004 0012a303 fault LoadMisaligned
  after 2
  task 0 faulted LoadMisaligned c 1 d 9 pc 80000004
  regs x5=80000000
  out 0
!   task 0: LoadMisaligned at _start+0x4: lw x6,1(x5): 80000001, no multiple of 4

case a split store that changes the two instructions behind it
file a.s _start: lui x5,0x80000\nlui x6,0x00009\naddi x6,x6,769\nsh x6,19(x5)\naddi x7,x7,1\naddi x8,x8,1\n
file in.set hyper 12\ntask-split 1 3 0 64 a.rti\n
$ rt_sim run in.rts --ticks 6
  0 0 80000000 800002b7 next
  1 0 80000004 00009337 next
  2 0 80000008 30130313 next
  3 0 8000000c 006299a3 next
  4 0 80000010 01138393 next
  5 0 80000014 00140493 next
  after 6
  task 0 active c 1 d 21 pc 80000018
  regs x5=80000000 x6=00009301 x7=00000011 x9=00000001
  out 0
$ rt_sim check in.rts
  admitted 4 of 12
$ rt_sim report in.rts --ticks 6
  task          jobs         ticks           min           max          hard          late
     0             0             6             -             -             0             0
  idle             0

case a split store of an object alone
file a.s _start: lui x5,0x80000\n.word 0x0012a0a3\n
$ rt_sim solo a.rti --ticks 2 --ram 16 --split
  0 0 80000000 800002b7 next
  1 0 80000004 0012a0a3 next
  after 2
  task 0 active pc 80000008
  regs x5=80000000
  out 0

case parts of runs
# writer writes the first two bytes of its own first word at its tick 3, and ends at its tick 5. In the set it has ticks 1, 2, 4, 5, 8
# and 9.
file writer.s _start: auipc x10,0x00000\naddi x11,x0,2\naddi x17,x0,1\necall\naddi x17,x0,0\necall\n
file pair.set hyper 12\ntask 1 3 0 64 loop.rti\ntask 2 4 0 64 writer.rti\n
$ rt_sim solo writer.rti --ram 64 --ticks 0 --quiet
  after 0
  task 0 active pc 80000000
  regs
  out 0
$ rt_sim solo writer.rti --ram 64 --ticks 6 --quiet
  after 6
  task 0 ended pc 80000018
  regs x10=00000002 x11=00000002
  out 2 1705
$ rt_sim solo writer.rti --ram 64 --ticks 3 --out | od -An -tx1
$ rt_sim solo writer.rti --ram 64 --ticks 4 --out | od -An -tx1
   17 05
$ rt_sim run pair.rts --ticks 6 --quiet
  after 6
  task 0 active c 1 d 9 pc 80000000
  regs
  out 0
  task 1 active c 2 d 12 pc 80000010
  regs x10=00000002 x11=00000002 x17=00000001
  out 2 1705
$ rt_sim run pair.rts --ticks 5 --out 1 | od -An -tx1
$ rt_sim run pair.rts --ticks 6 --out 1 | od -An -tx1
   17 05
$ rt_sim run pair.rts --ticks 600 --out 0 | od -An -tx1
$ rt_sim run pair.rts --ticks 6 --out 2
! rt_sim: task 2 of 2
!   tasks are 0 to 1
? 1

case the output of a task, by its name
# Each writes the first byte of its first word: 17 of auipc x10, 97 of auipc x7.
file ink.s ink: _start: auipc x10,0x00000\naddi x11,x0,1\naddi x17,x0,1\necall\naddi x17,x0,0\necall\n
file dye.s dye: _start: auipc x7,0x00000\naddi x10,x7,0\naddi x11,x0,1\naddi x17,x0,1\necall\naddi x17,x0,0\necall\n
file both.set hyper 2\ntask 1 2 0 64 ink.rti\ntask 1 2 0 64 dye.rti\n
file twice.set hyper 3\ntask 1 3 0 64 dye.rti\ntask 1 3 0 64 ink.rti\ntask 1 3 0 64 dye.rti\n
file over.set hyper 1\ntask 1 1 0 64 ink.rti\ntask 1 1 0 64 dye.rti\n
$ rt_sim run both.rts --ticks 20 --out ink | od -An -tx1
   17
$ rt_sim run both.rts --ticks 20 --out dye | od -An -tx1
   97
$ rt_sim run both.set --ticks 20 --out dye --fail-on fault | od -An -tx1
   97
$ rt_sim run twice.rts --ticks 20 --out ink --quiet > /dev/null 2>&1
? 2
$ rt_sim run twice.rts --ticks 20 --out dye
! rt_sim: task dye: 2 tasks have this name
!   their numbers are 0, 2
? 1
$ rt_sim run twice.rts --ticks 20 --out 2 | od -An -tx1
   97
$ rt_sim run both.rts --ticks 20 --out tint
! rt_sim: no task tint
!   they are ink, dye
? 1
# the set is refused first, and words of --except are
$ rt_sim run over.rts --ticks 20 --out tint 2>&1 | head -1
  rt_sim: set: Overload total 2 hyper 1
? 1
$ rt_sim run over.rts --ticks 20 --out ink --overloaded 2> /dev/null | od -An -tx1
   17
$ rt_sim run both.rts --ticks 20 --out tint --fail-on over --except 7 2>&1 | head -1
  rt_sim: task 7 of 2
? 1
$ rt_sim run both.rts --ticks 20 --out 7 --fail-on over --except dye 2>&1 | head -1
  rt_sim: task 7 of 2
? 1

case sets that ask for 14 of 12 ticks, and are run all the same
# The deadlines of task 0 are 3, 6, 9, 12, those of task 1 are 4, 8, 12. At tick 12 task 1 has 2 ticks of budget left before its
# deadline, 12.
file in.set hyper 12\ntask 2 3 0 64 loop.rti\ntask 2 4 0 64 loop.rti\n
$ rt_sim run in.rts --ticks 12 --overloaded
  0 0 80000000 0000006f next
  1 0 80000000 0000006f next
  2 1 80000000 0000006f next
  3 1 80000000 0000006f next
  4 0 80000000 0000006f next
  5 0 80000000 0000006f next
  6 1 80000000 0000006f next
  7 1 80000000 0000006f next
  8 0 80000000 0000006f next
  9 0 80000000 0000006f next
  10 0 80000000 0000006f next
  11 0 80000000 0000006f next
  after 12
  task 0 active c 2 d 15 pc 80000000
  regs
  out 0
  task 1 active c 2 d 12 pc 80000000
  regs
  out 0
! rt_sim: not admitted: total 14 of 12; nothing is promised
$ rt_sim run in.rts --ticks 12
! rt_sim: set: Overload total 14 hyper 12
!   rt_sim help Overload
? 1

case an overloaded set of which a task ends
# The set of examples/over: task 0 ends at tick 10, with a deadline of 12 as task 1 has, and the lower number.
file a.s _start: auipc x10,0x00000\naddi x10,x10,28\naddi x11,x0,3\naddi x17,x0,1\necall\naddi x17,x0,0\necall\n.word 0x000a6968\n
file in.set hyper 12\ntask 2 3 0 64 a.rti\ntask 2 4 0 64 loop.rti\n
$ rt_sim run in.rts --ticks 12 --overloaded
  0 0 80000000 00000517 next
  1 0 80000004 01c50513 next
  2 1 80000000 0000006f next
  3 1 80000000 0000006f next
  4 0 80000008 00300593 next
  5 0 8000000c 00100893 next
  6 1 80000000 0000006f next
  7 1 80000000 0000006f next
  8 0 80000010 00000073 write 3
  9 0 80000014 00000893 next
  10 0 80000018 00000073 end
  11 1 80000000 0000006f next
  after 12
  task 0 ended c 1 d 12 pc 8000001c
  regs x10=00000003 x11=00000003
  out 3 68690a
  task 1 active c 1 d 12 pc 80000000
  regs
  out 0
! rt_sim: not admitted: total 14 of 12; nothing is promised

case objects that are not loaded: two words, with these entries, in so many bytes of RAM
file 80000000.rti RTI1\0\0\0\x80\x08\0\0\0\0\0\0\0\x13\0\0\0\x13\0\0\0
file 80000001.rti RTI1\x01\0\0\x80\x08\0\0\0\0\0\0\0\x13\0\0\0\x13\0\0\0
file 80000002.rti RTI1\x02\0\0\x80\x08\0\0\0\0\0\0\0\x13\0\0\0\x13\0\0\0
file 80000010.rti RTI1\x10\0\0\x80\x08\0\0\0\0\0\0\0\x13\0\0\0\x13\0\0\0
file 7ffffffc.rti RTI1\xfc\xff\xff\x7f\x08\0\0\0\0\0\0\0\x13\0\0\0\x13\0\0\0
file fffffffc.rti RTI1\xfc\xff\xff\xff\x08\0\0\0\0\0\0\0\x13\0\0\0\x13\0\0\0
file 00000000.rti RTI1\0\0\0\0\x08\0\0\0\0\0\0\0\x13\0\0\0\x13\0\0\0
$ for it in '80000000 3' '80000000 0' '80000000 1048580' '80000001 3' '80000000 4' '80000001 4' '80000001 16' '80000002 16' '80000010 16' '7ffffffc 16' 'fffffffc 16' '00000000 16'; do
+   rt_sim solo ${it% *}.rti --ticks 1 --ram ${it#* } 2>&1 | sed -n 1p
+ done
  rt_sim: load: BadSize
  rt_sim: load: BadSize
  rt_sim: load: BadSize
  rt_sim: load: BadSize
  rt_sim: load: ImageTooBig task 0
  rt_sim: load: ImageTooBig task 0
  rt_sim: load: BadEntry task 0
  rt_sim: load: BadEntry task 0
  rt_sim: load: BadEntry task 0
  rt_sim: load: BadEntry task 0
  rt_sim: load: BadEntry task 0
  rt_sim: load: BadEntry task 0
? 1

case sixty-eight bytes for a RAM of 64, and a set of no task
file a.s _start: .zero 68\n
file in.set hyper 12\ntask 2 3 0 64 a.rti\n
file none.rts RTS1\x0c\0\0\0\0\0\0\0
$ for it in 'run in.rts' 'run none.rts' 'jobs none.rts'; do rt_sim $it --ticks 1 2> said; sed -n 1p said; done
  rt_sim: load: ImageTooBig task 0
  rt_sim: set: NoTasks
  rt_sim: set: NoTasks

case a reserve that a fresh wake takes
# the wake at 21 is tested with a budget of 1: 1 * 3 >= (24 - 21) * 1, so it is fresh and gives the 2 that were reserved
file a.s _start: addi x17,x0,5\naddi x10,x0,2\necall\naddi x17,x0,2\naddi x10,x0,21\naddi x11,x0,0\necall\njal x0,0x8000001c\n
file in.set hyper 12\ntask 1 3 0 64 a.rti\n
$ rt_sim run in.rts --ticks 21
  0 0 80000000 00500893 next
  1 0 80000004 00200513 next
  2 0 80000008 00000073 reserve 2
  3 0 8000000c 00200893 next
  4 0 80000010 01500513 next
  5 0 80000014 00000593 next
  6 0 80000018 00000073 sleep 21
  7 idle 14
  after 21
  task 0 active c 2 d 24 pc 8000001c
  regs x10=00000015 x17=00000002
  out 0
$ rt_sim report in.rts --ticks 21
  task          jobs         ticks           min           max          hard          late
     0             1             7             7             7             0             0
  idle            14

case a reserve that a kept wake leaves
# the wake at 20 keeps what was left: 1 * 3 < (24 - 20) * 1
file a.s _start: addi x17,x0,5\naddi x10,x0,2\necall\naddi x17,x0,2\naddi x10,x0,20\naddi x11,x0,0\necall\njal x0,0x8000001c\n
file in.set hyper 12\ntask 1 3 0 64 a.rti\n
$ rt_sim run in.rts --ticks 20
  0 0 80000000 00500893 next
  1 0 80000004 00200513 next
  2 0 80000008 00000073 reserve 2
  3 0 8000000c 00200893 next
  4 0 80000010 01400513 next
  5 0 80000014 00000593 next
  6 0 80000018 00000073 sleep 20
  7 idle 13
  after 20
  task 0 active c 1 d 24 pc 8000001c
  regs x10=00000014 x17=00000002
  out 0
$ rt_sim report in.rts --ticks 20
  task          jobs         ticks           min           max          hard          late
     0             1             7             7             7             0             0
  idle            13

case a reserve, and three jobs of its budget
# from 21 on a job of 2 ticks in each period of 3, each released to a full budget of 2: three of them are finished
file a.s _start: addi x17,x0,5\naddi x10,x0,2\necall\naddi x17,x0,2\naddi x10,x0,21\naddi x11,x0,0\necall\naddi x10,x10,3\necall\naddi x10,x10,3\necall\naddi x10,x10,3\necall\njal x0,0x80000034\n
file in.set hyper 12\ntask 1 3 0 64 a.rti\n
$ rt_sim run in.rts --ticks 30
  0 0 80000000 00500893 next
  1 0 80000004 00200513 next
  2 0 80000008 00000073 reserve 2
  3 0 8000000c 00200893 next
  4 0 80000010 01500513 next
  5 0 80000014 00000593 next
  6 0 80000018 00000073 sleep 21
  7 idle 14
  21 0 8000001c 00350513 next
  22 0 80000020 00000073 sleep 24
  23 idle 1
  24 0 80000024 00350513 next
  25 0 80000028 00000073 sleep 27
  26 idle 1
  27 0 8000002c 00350513 next
  28 0 80000030 00000073 sleep 30
  29 idle 1
  after 30
  task 0 active c 2 d 33 pc 80000034
  regs x10=0000001e x17=00000002
  out 0
$ rt_sim report in.rts --ticks 30
  task          jobs         ticks           min           max          hard          late
     0             4            13             2             7             3             0
  idle            17

case a reserve for which there is no room
# beside 2 of 4 ticks, 6 of 12, there is no room for 2 of 3, 8 of 12
file a.s _start: addi x17,x0,5\naddi x10,x0,2\necall\njal x0,0x8000000c\n
file in.set hyper 12\ntask 1 3 0 64 a.rti\ntask 2 4 0 64 loop.rti\n
$ rt_sim run in.rts --ticks 7
  0 0 80000000 00500893 next
  1 1 80000000 0000006f next
  2 1 80000000 0000006f next
  3 0 80000004 00200513 next
  4 1 80000000 0000006f next
  5 1 80000000 0000006f next
  6 0 80000008 00000073 reserve refused
  after 7
  task 0 active c 1 d 12 pc 8000000c
  regs x10=ffffffff x17=00000005
  out 0
  task 1 active c 2 d 12 pc 80000000
  regs
  out 0
$ rt_sim report in.rts --ticks 7
  task          jobs         ticks           min           max          hard          late
     0             0             3             -             -             0             0
     1             0             4             -             -             0             0
  idle             0
