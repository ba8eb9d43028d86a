# What ticks did, by hand from the words.

# The objects have no symbols.
# jal x0,0x80000000
file loop.rti RTI1\0\0\0\x80\x04\0\0\0\0\0\0\0o\0\0\0
# It sleeps at tick 3 until tick 7.
# addi x17,x0,2; addi x10,x0,7; addi x11,x0,0; ecall; jal x0,0x80000010
file sleeper.rti RTI1\0\0\0\x80\x14\0\0\0\0\0\0\0\x93\x08 \0\x13\x05p\0\x93\x05\0\0s\0\0\0o\0\0\0
file sleeper.set hyper 10\ntask 5 10 0 64 sleeper.rti\n
# Two tasks that take ticks in turn: 0, 1, 1.
file busy.set hyper 12\ntask 1 3 0 64 loop.rti\ntask 2 4 0 64 loop.rti\n
# It makes its word at 80000014 another one.
# auipc x5,0x00000; addi x5,x5,20; lui x6,0x00208; addi x6,x6,147; addi x0,x0,0; addi x1,x1,1; sw x6,0(x5); jal x0,0x80000010
file rewriter.rti RTI1\0\0\0\x80 \0\0\0\0\0\0\0\x97\x02\0\0\x93\x82B\x017\x83 \0\x13\x033\t\x13\0\0\0\x93\x80\x10\0#\xa0b\0o\xf0_\xff
file rewriter.set hyper 10\ntask 10 10 0 64 rewriter.rti\n

case a sleep
$ rt_sim trace sleeper.rts --from 0 --ticks 8
  0	0	80000000	-	addi x17,x0,2	x17=00000002
  1	0	80000004	-	addi x10,x0,7	x10=00000007
  2	0	80000008	-	addi x11,x0,0	x11=00000000
  3	0	8000000c	-	ecall	sleep 7
  4	idle	3
  7	0	80000010	-	jal x0,0x80000010	pc=80000010

case an idle stretch, cut on both sides
$ rt_sim trace sleeper.rts --from 5 --ticks 1
  5	idle	1
$ rt_sim trace sleeper.rts --from 5 --ticks 3
  5	idle	2
  7	0	80000010	-	jal x0,0x80000010	pc=80000010

case no idle stretches of one task
$ rt_sim trace sleeper.rts --from 3 --ticks 4 --task 0
  3	0	8000000c	-	ecall	sleep 7

case two tasks
$ rt_sim trace busy.rts --from 0 --ticks 2
  0	0	80000000	task0:-	jal x0,0x80000000	pc=80000000
  1	1	80000000	task1:-	jal x0,0x80000000	pc=80000000
$ rt_sim trace busy.rts --from 2 --ticks 2 --task 1
  2	1	80000000	task1:-	jal x0,0x80000000	pc=80000000

case a sleep

case a word that is another one when it comes again
$ rt_sim trace rewriter.rts --from 4 --ticks 7
  4	0	80000010	-	addi x0,x0,0	-
  5	0	80000014	-	addi x1,x1,1	x1=00000001
  6	0	80000018	-	sw x6,0(x5)	[80000014]=00208093
  7	0	8000001c	-	jal x0,0x80000010	pc=80000010
  8	0	80000010	-	addi x0,x0,0	-
  9	0	80000014	-	addi x1,x1,2	x1=00000003
  10	0	80000018	-	sw x6,0(x5)	[80000014]=00208093

case ticks of two and of three digits
$ rt_sim trace rewriter.rts --from 98 --ticks 4 --task 0
  98	0	80000018	-	sw x6,0(x5)	[80000014]=00208093
  99	0	8000001c	-	jal x0,0x80000010	pc=80000010
  100	0	80000010	-	addi x0,x0,0	-
  101	0	80000014	-	addi x1,x1,2	x1=00000031

case no task of this number
$ rt_sim trace busy.rts --ticks 9 --task 2
! rt_sim: task 2 of 2
!   tasks are 0 to 1
? 1

case a task by its name
file ping.s ping: _start: j ping\n
file pong.s pong: _start: j pong\n
file two.set hyper 2\ntask 1 2 0 64 ping.rti\ntask 1 2 0 64 pong.rti\n
file twice.set hyper 3\ntask 1 3 0 64 ping.rti\ntask 1 3 0 64 pong.rti\ntask 1 3 0 64 ping.rti\n
$ rt_sim trace two.rts --ticks 3 --from 1 --task pong
  1	1	80000000	pong:pong	jal x0,0x80000000	pc=80000000
  3	1	80000000	pong:pong	jal x0,0x80000000	pc=80000000
$ rt_sim trace twice.set --ticks 4 --task pong
  1	1	80000000	pong:pong	jal x0,0x80000000	pc=80000000
$ rt_sim trace twice.rts --ticks 4 --task ping
! rt_sim: task ping: 2 tasks have this name
!   their numbers are 0, 2
? 1
$ rt_sim trace two.rts --ticks 4 --task pang
! rt_sim: no task pang
!   they are ping, pong
? 1
# a name without a symbol, and one that is a number
$ rt_sim trace busy.rts --from 2 --ticks 2 --task task1
  2	1	80000000	task1:-	jal x0,0x80000000	pc=80000000
$ rt_sim trace two.rts --ticks 4 --task 0x1 2>&1 | head -1
  rt_sim: no task 0x1
? 1

case what each row of RV32I does
# By the ISA document (RISC-V Unprivileged ISA 20191213, chapters 2 and 24), added up by hand. Each row has a word at 80000100, with
# x1 = 80000200, x2 = 12345678, x3 = 5, and a word at 80000200 behind a byte 80; and what the tick did.
file set hyper 1\ntask 1 1 0 1024 in.rti\n
file did.sh
  # what tick 6 does, of this word at 80000100 with that one at 80000200
  begin='_start: lui x1,0x80000\naddi x1,x1,0x200\nlui x2,0x12345\naddi x2,x2,0x678\nli x3,5\nj 0x80000100\n.zero 232'
  printf "$begin\n.word $1\n.zero 251\n.byte 0x80\n.word $2\n" > in.s
  rt_sim asm in.s in.rti && rt_sim pack set in.rts && rt_sim trace in.rts --from 6 --ticks 1 | cut -f 6
file rows
  0x12345237 0x0: x4=12345000
  0x00001217 0x0: x4=80001100
  0x0100026f 0x0: x4=80000104, pc=80000110
  0x00408267 0x0: x4=80000104, pc=80000204
  0x00210463 0x0: pc=80000108
  0xfe311ee3 0x0: pc=800000fc
  0x0021c463 0x0: pc=80000108
  0x00315463 0x0: pc=80000108
  0x00316463 0x0: -
  0x00317463 0x0: pc=80000108
  0xfff08203 0x0: x4=ffffff80, from 800001ff
  0x00209203 0x80010000: x4=ffff8001, from 80000202
  0x0000a083 0x7: x1=00000007, from 80000200
  0x0000c203 0x80: x4=00000080, from 80000200
  0x0000d003 0x0: from 80000200
  0x002081a3 0x0: [80000203]=78
  0xfe209f23 0x0: [800001fe]=5678
  0x0020a023 0x0: [80000200]=12345678
  0xfff18213 0x0: x4=00000004
  0x0061a213 0x0: x4=00000001
  0xfff1b213 0x0: x4=00000001
  0xfff1c213 0x0: x4=fffffffa
  0x0081e213 0x0: x4=0000000d
  0x0041f213 0x0: x4=00000004
  0x00419213 0x0: x4=00000050
  0x00815213 0x0: x4=00123456
  0x40415213 0x0: x4=01234567
  0x00310233 0x0: x4=1234567d
  0x40218233 0x0: x4=edcba98d
  0x00319233 0x0: x4=000000a0
  0x00312233 0x0: x4=00000000
  0x0021b233 0x0: x4=00000001
  0x00314233 0x0: x4=1234567d
  0x00315233 0x0: x4=0091a2b3
  0x40315233 0x0: x4=0091a2b3
  0x00316233 0x0: x4=1234567d
  0x00317033 0x0: -
  0x0ff0000f 0x0: -
  0x00000000 0x0: fault Illegal
  0x00208267 0x0: fault JumpMisaligned
  0x0010a203 0x0: fault LoadMisaligned at 80000201
  0x00018203 0x0: fault LoadAccess at 00000005
  0x0020a123 0x0: fault StoreMisaligned at 80000202
  0x00218023 0x0: fault StoreAccess at 00000005
  0x00100073 0x0: fault Break
$ while read -r word data wanted; do did=$(bash did.sh $word ${data%:}); [ "$did" = "$wanted" ] || echo "$word $data $did"; done < rows

case what each call does
file in.s
  _start: la a0, _start
  li a1, 3
  li a7, 1
  ecall
  li a0, 0
  ecall
  li a7, 5
  li a0, 2
  ecall
  li a0, 99
  ecall
  li a7, 4
  ecall
  li a7, 2
  li a0, 100
  li a1, 0
  ecall
  li a7, 3
  ecall
  li a1, 1
  li a7, 2
  li a0, 6
  ecall
  li a7, 4
  ecall
  li a7, 0
  ecall
file in.set hyper 12\ntask 9 12 0 128 in.rti\n
$ rt_sim trace in.rts --ticks 4294967400 | grep ecall | cut -f 1,6
  4	write 3, x10=00000003
  6	write refused, x10=ffffffff
  9	reserve 2, x10=00000000
  11	reserve refused, x10=ffffffff
  13	now 13, x10=0000000d
  17	sleep 100
  101	yield
  105	sleep 4294967302
  4294967303	now 4294967303, x10=00000007
  4294967305	end
file odd.s _start: li a7, 6\necall\n
file odd.set hyper 12\ntask 9 12 0 128 odd.rti\n
$ rt_sim trace odd.rts --from 1 --ticks 1 | cut -f 3-
  80000004	_start+0x4	ecall	fault UnknownCall

case names of ticks
# In one, two names are those of its second word, another that of its ninth; then it jumps out of RAM. Of two tasks the second has the name of its file.
$ for it in $(seq 13); do
+   printf '\x13\0\0\0'
+ done > one
+ printf '\xb7\0\0\x90\x67\x80\0\x02' >> one
+ printf '80000004 t _again\n80000004 T again\n80000020 t zeta\n' > one.nm
+ rt_sim image one 1.rti --symbols one.nm
$ printf '\x13\0\0\0\x13\0\0\0\x67\0\0\0' > two
+ echo 80000000 T pid > two.nm
+ rt_sim image two two.rti --symbols two.nm
+ printf '\x6f\0\0\0' > loop
+ echo 80000000 T _start > loop.nm
+ rt_sim image loop loop.rti --symbols loop.nm
$ printf 'hyper 2\ntask 2 2 0 64 1.rti\n' > one.set; rt_sim pack one.set one.rts; rt_sim trace one.rts --ticks 16 | sed -n '1p;2p;8p;9p;16p'
  0	0	80000000	-	addi x0,x0,0	-
  1	0	80000004	again	addi x0,x0,0	-
  7	0	8000001c	again+0x18	addi x0,x0,0	-
  8	0	80000020	zeta	addi x0,x0,0	-
  15	0	90000020	zeta+0x10000000	-	fault FetchAccess
$ printf 'hyper 2\ntask 1 2 0 64 two.rti\ntask 1 2 0 64 loop.rti\n' > two.set; rt_sim pack two.set two.rts; rt_sim trace two.rts --ticks 8
  0	0	80000000	pid:pid	addi x0,x0,0	-
  1	1	80000000	loop:loop	jal x0,0x80000000	pc=80000000
  2	0	80000004	pid:pid+0x4	addi x0,x0,0	-
  3	1	80000000	loop:loop	jal x0,0x80000000	pc=80000000
  4	0	80000008	pid:pid+0x8	jalr x0,0(x0)	pc=00000000
  5	1	80000000	loop:loop	jal x0,0x80000000	pc=80000000
  6	0	00000000	pid:-	-	fault FetchAccess
  7	1	80000000	loop:loop	jal x0,0x80000000	pc=80000000

case names of tasks are those at the entry
# the entry is the second word of each; the first has no symbols
file 0.rti RTI1\x04\0\0\x80\x0c\0\0\0\0\0\0\0\x13\0\0\0\x13\0\0\0\x13\0\0\0
file 1.s nop\n_start: nop\n
file 2.s nop\n_start: pid: nop\n
file 3.s nop\n_start: .x: longer: pid: qed: nop\n
file 4.s a: nop\n_start: motor: nop\nz: nop\n
file 5.s a: nop\n_start: nop\nz: nop\n
file 6.s nop\n_start: A: a: nop\n
file in.set
  hyper 12
  task 1 12 0 64 0.rti
  task 1 12 0 64 1.rti
  task 1 12 0 64 2.rti
  task 1 12 0 64 3.rti
  task 1 12 0 64 4.rti
  task 1 12 0 64 5.rti
  task 1 12 0 64 6.rti
$ rt_sim report in.rts --ticks 0 --csv | sed 's/.*,//' | paste -sd' '
  name task0 task1 pid pid motor task5 A
