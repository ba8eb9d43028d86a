# Failures that a build asks for: which tasks aren't looked at, and which job or attempt a failure was.

# it sleeps until 10, 20, 30, ..: three ticks a job
file attitude.s
  attitude:
  _start: addi x17,x0,2
  again: addi x10,x10,10
  ecall
  j again
# it does so twice, and never ends its third job
file stuck.s
  attitude:
  _start: addi x17,x0,2
  addi x5,x0,30
  again: addi x10,x10,10
  beq x10,x5,stuck
  ecall
  j again
  stuck: j stuck
file logger.s logger: _start: j _start\n
file well.set hyper 10\ntask 5 10 0 64 attitude.rti\ntask 5 10 0 64 logger.rti\n
file hung.set hyper 10\ntask 5 10 0 64 stuck.rti\ntask 5 10 0 64 logger.rti\n

case a task without a promise is left out
$ rt_sim report well.rts --ticks 100 --fail-on fault,over,soft,refused,few,lost --except logger | wc -l
  4
$ rt_sim jobs well.rts --ticks 30 --fail-on over,few --except=1
  task,job,release,finish,response,ticks,fresh,calm,hard,late
  0,0,0,2,3,3,true,true,true,false
  0,1,10,12,3,3,true,true,true,false
  0,2,20,22,3,3,true,true,true,false
$ rt_sim run well.rts --ticks 100 --quiet --fail-on few,over > /dev/null
! rt_sim: failed: few task 1
!   logger: 0 jobs finished of 10 released by tick 90
!   over task 1
!   logger: job 0, released at 0, has no end after 100 ticks
? 4
$ rt_sim run well.rts --ticks 100 --quiet --fail-on few,over --except attitude,logger | head -1
  after 100

case a run in which failures are looked for has the text that it has without
$ for n in 0 1 99 100 101 2345; do for it in '' --quiet '--out 1'; do cmp <(rt_sim run well.rts --ticks $n $it) <(rt_sim run well.rts --ticks $n $it --fail-on fault); done; done
$ for it in '' --quiet --out; do cmp <(rt_sim solo stuck.rti --ticks 999 $it) <(rt_sim solo stuck.rti --ticks 999 $it --fail-on fault); done
$ rt_sim run well.rts --ticks 9 --out 2 --fail-on over
! rt_sim: task 2 of 2
!   tasks are 0 to 1
? 1

case a job that hangs fails what is left
$ rt_sim report hung.rts --ticks 60 --fail-on fault,over,soft --except logger > /dev/null
! rt_sim: failed: over task 0
!   attitude: job 2, released at 20, has no end after 40 ticks
? 4
# at tick 30 it is as old as the period; its job of tick 20 has had one, and isn't finished
$ for word in over few; do rt_sim report hung.rts --ticks 30 --fail-on $word --except logger 2>&1 > /dev/null; done
  rt_sim: failed: few task 0
    attitude: 2 jobs finished of 3 released by tick 20
? 4
$ rt_sim report hung.rts --ticks 29 --fail-on few --except logger > /dev/null

case which job, and when and where
# a job of three ticks with a budget of 1 and a period of 2
file slow.s slow: _start: nop\nli x17,0\necall\n
file slow.set hyper 2\ntask 1 2 0 64 slow.rti\n
$ rt_sim report slow.rts --ticks 5 --fail-on soft,over > /dev/null
! rt_sim: failed: soft task 0
!   slow: job 0, released at 0, isn't hard
!   over task 0
!   slow: job 0, released at 0, took 3 ticks, over its period of 2
? 4
# a reserve of more than the period
file asks.s asks: _start: li x17,5\nli x10,99\nask: ecall\nend: j end\n
file asks.set hyper 12\ntask 3 12 0 64 asks.rti\n
$ rt_sim run asks.rts --ticks 5 --out 0 --fail-on refused
! rt_sim: failed: refused task 0
!   asks: at tick 2, at ask
? 4

case writes that the output has no room for
# each third tick from 3 on it writes 256 bytes: 256 times, up to tick 768
file writer.s
  writer:
  _start: addi x11,x0,256
  addi x17,x0,1
  again: lui x10,0x80000
  ecall
  j again
file writer.set hyper 12\ntask 3 12 0 1024 writer.rti\n
$ rt_sim run writer.rts --ticks 771 --out 0 --fail-on lost | wc -c
  65536
$ rt_sim run writer.rts --ticks 772 --out 0 --fail-on lost | wc -c
  65536
! rt_sim: failed: lost task 0
!   writer: at tick 771, at again+0x4
!   writer: output is full since tick 771 (65536 bytes)
? 4
$ rt_sim report writer.rts --ticks 772 --fail-on lost > /dev/null
! rt_sim: failed: lost task 0
!   writer: at tick 771, at again+0x4
? 4
$ rt_sim run writer.rts --ticks 771 --quiet > /dev/null
$ rt_sim run writer.rts --ticks 900 > /dev/null
!   writer: output is full since tick 771 (65536 bytes)
# 257 writes of 255 bytes, the last of them at tick 771
file odd.s
  _start: addi x11,x0,255
  addi x17,x0,1
  again: lui x10,0x80000
  ecall
  j again
$ rt_sim solo odd.rti --ticks 774 --ram 1K --quiet > /dev/null
$ rt_sim solo odd.rti --ticks 775 --ram 1K --out | wc -c
  65535
!   task0: output is full since tick 774 (65535 bytes)
# a write of bytes outside RAM, one of 257 bytes: refused at every room
file wild.s _start: li x17,1\nli x11,1\necall\nli x11,257\nlui x10,0x80000\necall\nend: j end\n
file wild.set hyper 12\ntask 3 12 0 1024 wild.rti\n
$ rt_sim run wild.rts --ticks 9 --fail-on lost | grep -c refused
  2

case words that mean no task
file twice.set hyper 10\ntask 3 10 0 64 logger.rti\ntask 3 10 0 64 attitude.rti\ntask 3 10 0 64 logger.rti\n
$ rt_sim report well.rts --ticks 9 --fail-on over --except logger,motor
! rt_sim: no task motor
!   they are attitude, logger
? 1
$ rt_sim run well.rts --ticks 9 --fail-on over --except 1,2
! rt_sim: task 2 of 2
!   tasks are 0 to 1
? 1
$ rt_sim jobs twice.rts --ticks 9 --fail-on over --except logger
! rt_sim: task logger: 2 tasks have this name
!   their numbers are 0, 2
? 1
$ rt_sim jobs twice.rts --ticks 9 --fail-on over --except attitude > /dev/null
$ rt_sim chart well.rts --ticks 9 --except logger,motor
! rt_sim: no task motor
!   they are attitude, logger
? 1
$ rt_sim chart twice.rts --ticks 9 --except 3
! rt_sim: task 3 of 3
!   tasks are 0 to 2
? 1
$ rt_sim chart twice.rts --ticks 9 --except attitude | tail -1
  </svg>
$ rt_sim report well.rts --ticks 9 --except 0 > /dev/null 2>&1
? 2
