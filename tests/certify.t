# Certificates, worked out by hand.

# beat sleeps until 10, 20, 30, ..; ends ends with its second attempt; loads loads a half at an odd address, and loops
file beat.s _start: addi x17,x0,2\naddi x10,x10,10\necall\njal x0,0x80000004\n
file ends.s _start: addi x17,x0,0\necall\n
file loads.s _start: lui x10,0x80000\nlh x11,1(x10)\njal x0,0x80000008\n

case certificates
$ rt_sim certify beat.rti --jobs 60 --budget 3 --period 10 --ram 64
  certified 60 longest 3 distance 10 next 600
$ rt_sim certify ends.rti --jobs 60 --budget 3 --period 10 --ram 64 --no-progress
  certified 1 longest 2 distance - ended
$ rt_sim certify beat.rti --jobs 60 --budget 2 --period 10 --ram 64
! rt_sim: certify: OverBudget job 0 pc 80000008 release 0 ticks 3
!   task 0: OverBudget at _start+0x8: ecall: this job takes --budget 3
!   rt_sim help OverBudget
? 1

case jobs have several periods
$ rt_sim certify beat.rti --jobs 60 --budget 1 --period 4 --ram 64 --periods 3
! rt_sim: certify: TooSoon job 0 pc 80000008 release 0 sleep 10 periods 3
!   task 0: TooSoon at _start+0x8: ecall at tick 2: so far --period 3 holds
!   rt_sim help TooSoon
? 1

case split accesses
$ rt_sim certify loads.rti --jobs 1 --budget 9 --period 10 --ram 64
! rt_sim: certify: Faults job 0 pc 80000004 LoadMisaligned
!   task 0: LoadMisaligned at _start+0x4: lh x11,1(x10): 80000001, no multiple of 2
!   rt_sim help Faults
? 1
$ rt_sim certify loads.rti --jobs 1 --budget 9 --period 10 --ram 64 --split
! rt_sim: certify: OverBudget job 0 pc 80000008 release 0 ticks 10
!   task 0: OverBudget at _start+0x8: jal x0,0x80000008: this job has no end within 90 ticks
!   rt_sim help OverBudget
? 1

case other faults come first
$ rt_sim certify beat.rti --jobs 1 --budget 2 --period 10 --ram 63
! rt_sim: load: BadSize
!   RAM has a multiple of 4 from 4 to 1048576 bytes
!   rt_sim help BadSize
? 1
$ rt_sim certify beat.rti --jobs 1 --budget 2 --period 10 --ram 12
! rt_sim: load: ImageTooBig task 0
!   image 16 bytes, RAM 12: give the task at least 16, and its stack
!   rt_sim help ImageTooBig
? 1

case where programs aren't certified, and what to do
# Its first job has 90 attempts: nine, 80 of the loop, and the sleep, until 100; the second sleeps until 100 too.
file long.s _start: addi x17,x0,2\naddi x10,x0,100\naddi x5,x0,40\nnop\nnop\nnop\nnop\nnop\nnop\nagain: addi x5,x5,-1\nbne x5,x0,again\necall\nsecond: ecall\n
file yields.s _start: addi x17,x0,3\necall\n
file tick.s _start: addi x17,x0,4\necall\n
file jumps.s _start: jal x0,0x80000100\n
file rows
  long --jobs 1 --budget 9: OverBudget at again: addi x5,x5,-1: this job takes --budget 90
  long --jobs 1 --budget 8: OverBudget at _start+0x20: addi x0,x0,0: this job has no end within 80 ticks
  long --jobs 1 --budget 20 --periods 4: OverBudget at again+0x4: bne x5,x0,0x80000024: this job takes --budget 23
  long --jobs 1 --period 101: TooSoon at again+0x8: ecall at tick 89: so far --period 100 holds
  long --jobs 2: TooSoon at second: ecall at tick 100: a sleep takes a tick, not a length
  long --jobs 1 --period 101 --start 50: TooSoon at again+0x8: ecall at tick 139: a sleep takes a tick, not a length: so far --period 50 holds
  yields --jobs 1: Yields at _start+0x4: ecall: yields have no certificate, look at report
  tick --jobs 1: Asks at _start+0x4: ecall: what asks has no certificate, look at report
  jumps --jobs 1 --budget 1: OverBudget at _start+0x100: no instruction there: this job has no end within 10 ticks
$ while IFS= read -r row; do
+   said=$(rt_sim certify $(echo "${row%%:*}" | sed 's/ /.rti /') --ram 64 2>&1 | sed -n 2p)
+   [ "$said" = "  task 0:${row#*:}" ] || echo "$row: $said"
+ done < rows

case objects beside rows by hand
# Each row has an object, its periods, start, budget, period and jobs, and what is answered. Where it differs, the row is printed.
# It sleeps until 20, 40, ..; each fourth job has 19 attempts, the first one 13, and the others 10.
file worker.s _start: addi x8,x0,0\naddi x9,x0,0\naddi x11,x0,0\naddi x17,x0,2\naddi x9,x9,1\nandi x5,x9,3\naddi x6,x0,1\nbne x5,x0,0x80000024\naddi x6,x0,5\naddi x6,x6,-1\nbne x6,x0,0x80000024\naddi x8,x8,20\naddi x10,x8,0\necall\njal x0,0x80000010\n
# It sleeps until 5 and until 20, and ends.
file twice.s _start: addi x17,x0,2\naddi x10,x0,5\necall\naddi x10,x0,20\necall\naddi x17,x0,0\necall\n
# Its third attempt, at tick 2, sleeps until 2, and its fifth until 4.
file behind.s _start: addi x17,x0,2\naddi x10,x0,2\necall\naddi x10,x0,4\necall\n
file spin.s _start: jal x0,0x80000000\n
file poll.s _start: addi x17,x0,3\necall\njal x0,0x80000004\n
file asks-tick.s _start: addi x17,x0,4\necall\necall\n
file asks-budget.s _start: addi x17,x0,5\necall\necall\n
file breaks.s _start: ebreak\n
file rows
  beat 1 0 3 10 60: certified 60 longest 3 distance 10 next 600
  beat 1 0 4194304 1 60: certified 60 longest 3 distance 10 next 600
  beat 1 0 2 10 60: rt_sim: certify: OverBudget job 0 pc 80000008 release 0 ticks 3
  beat 1 5 3 10 60: rt_sim: certify: TooSoon job 0 pc 80000008 release 5 sleep 10
  beat 1 0 3 12 60: rt_sim: certify: TooSoon job 0 pc 80000008 release 0 sleep 10
  beat 1 0 3 11 1: rt_sim: certify: TooSoon job 0 pc 80000008 release 0 sleep 10
  worker 1 0 19 20 8: certified 8 longest 19 distance 20 next 160
  worker 1 0 19 20 7: certified 7 longest 19 distance 20 next 140
  worker 1 0 18 20 8: rt_sim: certify: OverBudget job 3 pc 80000034 release 60 ticks 19
  worker 1 0 18 20 3: certified 3 longest 13 distance 20 next 60
  worker 2 0 18 20 8: rt_sim: certify: TooSoon job 3 pc 80000034 release 60 sleep 80 periods 2
  worker 2 0 18 10 8: certified 8 longest 19 distance 20 next 160
  worker 2 0 19 20 8: certified 8 longest 19 distance 20 next 160
  worker 2 0 10 10 8: certified 8 longest 19 distance 20 next 160
  worker 2 0 10 11 8: rt_sim: certify: TooSoon job 0 pc 80000034 release 0 sleep 20 periods 2
  worker 2 0 9 10 8: rt_sim: certify: OverBudget job 3 pc 80000034 release 60 ticks 19
  spin 3 0 4 1 1: rt_sim: certify: OverBudget job 0 pc 80000000 release 0 ticks 13
  beat 3 0 1 3 60: certified 60 longest 3 distance 10 next 600
  beat 4096 0 1 3 60: certified 60 longest 3 distance 10 next 600
  beat 3 0 1 4 60: rt_sim: certify: TooSoon job 0 pc 80000008 release 0 sleep 10 periods 3
  beat 2 0 1 3 60: rt_sim: certify: OverBudget job 0 pc 80000008 release 0 ticks 3
  twice 1 0 3 5 2: certified 2 longest 3 distance 5 next 20
  twice 1 0 3 5 3: certified 3 longest 3 distance 5 ended
  twice 1 0 3 5 1099511627776: certified 3 longest 3 distance 5 ended
  twice 1 1 3 5 9: rt_sim: certify: TooSoon job 0 pc 80000008 release 1 sleep 5
  ends 1 0 2 1 5: certified 1 longest 2 distance - ended
  ends 1 0 1 1 5: rt_sim: certify: OverBudget job 0 pc 80000004 release 0 ticks 2
  behind 1 0 3 2 2: certified 2 longest 3 distance 2 next 4
  poll 1 0 9 1 5: rt_sim: certify: Yields job 0 pc 80000004
  asks-tick 1 0 9 1 5: rt_sim: certify: Asks job 0 pc 80000004
  asks-budget 1 0 9 1 5: rt_sim: certify: Asks job 0 pc 80000004
  breaks 1 0 9 1 5: rt_sim: certify: Faults job 0 pc 80000000 Break
  spin 1 0 6 1 1: rt_sim: certify: OverBudget job 0 pc 80000000 release 0 ticks 7
  poll 1 0 1 1 5: rt_sim: certify: OverBudget job 0 pc 80000004 release 0 ticks 2
$ while read -r name periods start budget period jobs wanted; do
+   said=$(rt_sim certify $name.rti --periods $periods --start $start --budget $budget --period $period --jobs ${jobs%:} 2>&1 | sed -n 1p)
+   [ "$said" = "$wanted" ] || echo "$name $periods $start $budget $period $jobs $said"
+ done < rows

case which job is the longest, and which has the least distance
# Its jobs have 13, 10, 10, 19, 10, 10, 10 and 19 attempts, and sleep until 20, 40, ..
file worker.s _start: addi x8,x0,0\naddi x9,x0,0\naddi x11,x0,0\naddi x17,x0,2\naddi x9,x9,1\nandi x5,x9,3\naddi x6,x0,1\nbne x5,x0,0x80000024\naddi x6,x0,5\naddi x6,x6,-1\nbne x6,x0,0x80000024\naddi x8,x8,20\naddi x10,x8,0\necall\njal x0,0x80000010\n
# Its jobs have 3, 2, 2 and 4 attempts, and sleep until 20, 25 and 30; the last one ends.
file nears.s _start: addi x17,x0,2\naddi x10,x0,20\necall\naddi x10,x0,25\necall\naddi x10,x0,30\necall\nnop\nnop\naddi x17,x0,0\necall\n
$ rt_sim certify worker.rti --jobs 8 --budget 19 --period 20 --ram 64 --where
  certified 8 longest 19 distance 20 next 160
  longest job 3 release 60
  distance job 0 release 0
$ rt_sim certify worker.rti --jobs 3 --ram 64 --where
  certified 3 longest 13 distance 20 next 60
  longest job 0 release 0
  distance job 0 release 0
$ rt_sim certify nears.rti --jobs 9 --ram 64 --where
  certified 4 longest 4 distance 5 ended
  longest job 3 release 30
  distance job 1 release 20
$ rt_sim certify nears.rti --jobs 3 --ram 64 --where
  certified 3 longest 3 distance 5 next 30
  longest job 0 release 0
  distance job 1 release 20
$ rt_sim certify ends.rti --jobs 5 --ram 64 --where
  certified 1 longest 2 distance - ended
  longest job 0 release 0
$ rt_sim certify ends.rti --jobs 5 --ram 64 --budget 1 --where 2>&1 | sed -n 1p
  rt_sim: certify: OverBudget job 0 pc 80000004 release 0 ticks 2
? 1

case a job that is longer than its period
# Each job of hasty has 5 attempts, and sleeps until 3 after its release; each of level 3, as far.
file hasty.s _start: addi x17,x0,2\nagain: addi x10,x10,3\nnop\nnop\necall\njal x0,again\n
file level.s _start: addi x17,x0,2\nagain: addi x10,x10,3\necall\njal x0,again\n
$ rt_sim certify hasty.rti --jobs 4 --ram 64
  certified 4 longest 5 distance 3 next 12
!   no set has a budget over its period: 5 is over 3
$ rt_sim certify hasty.rti --jobs 4 --ram 64 --where
  certified 4 longest 5 distance 3 next 12
  longest job 0 release 0
  distance job 0 release 0
!   no set has a budget over its period: 5 is over 3
$ rt_sim certify hasty.rti --jobs 4 --ram 64 --budget 5 --period 3 --periods 2
  certified 4 longest 5 distance 3 next 12
$ rt_sim certify level.rti --jobs 4 --ram 64
  certified 4 longest 3 distance 3 next 12

case each task of a set is certified, with its line's numbers
file two.set
  hyper 60
  task 3 10 0 64 beat.rti
  task 2 60 0 64 ends.rti
$ rt_sim certify two.set --jobs 5
  0 task0 certified 5 longest 3 distance 10 next 50
  1 task1 certified 1 longest 2 distance - ended
  the first 5 jobs of these tasks are answered in time in this set
$ rt_sim certify two.rts --jobs 5 | tail -1
  the first 5 jobs of these tasks are answered in time in this set

case the others are tried where a task isn't certified
# Two of them take three ticks, one from tick 5 on.
file bad.set
  hyper 60
  task 2 10 0 64 beat.rti
  task 2 60 0 64 ends.rti
  task 1 12 5 64 beat.rti
$ rt_sim certify bad.set --jobs 5
  1 task1 certified 1 longest 2 distance - ended
! rt_sim: task 0 task0: certify: OverBudget job 0 pc 80000008 release 0 ticks 3
!   task 0: OverBudget at _start+0x8: ecall: this job takes --budget 3
!   task 2 task2: certify: OverBudget job 0 pc 80000004 release 5 ticks 2
!   task 2: OverBudget at _start+0x4: addi x10,x10,10: this job takes --budget 3
!   rt_sim help OverBudget
? 1
$ rt_sim certify bad.set --jobs 5 --except 0,task2
  0 task0 excepted
  1 task1 certified 1 longest 2 distance - ended
  2 task2 excepted
  the first 5 jobs of these tasks are answered in time in this set
$ rt_sim certify bad.set --jobs 5 --except beat
! rt_sim: no task beat
!   they are task0, task1, task2
? 1
$ rt_sim certify bad.set --jobs 5 --except 1,3
! rt_sim: task 3 of 3
!   tasks are 0 to 2
? 1

case a set that can't be run isn't certified
file full.set
  hyper 10
  task 6 10 0 64 beat.rti
  task 6 10 0 64 beat.rti
$ rt_sim certify full.set --jobs 1
  task 0 weight 6
  task 1 weight 6
  breach task 1 c 2 d 10 tick 10
! rt_sim: set: Overload total 12 hyper 10
!   rt_sim help Overload
? 1
file small.set
  hyper 10
  task 3 10 0 64 beat.rti
  task 3 10 0 12 beat.rti
$ rt_sim certify small.set --jobs 1
! rt_sim: load: ImageTooBig task 1
!   image 16 bytes, RAM 12: give the task at least 16, and its stack
!   rt_sim help ImageTooBig
? 1

case an object has no tasks, and a set no options of one object
file two.set
  hyper 60
  task 3 10 0 64 beat.rti
$ rt_sim certify beat.rti --jobs 1 --except 0
! rt_sim: task 0 of 0
!   an object has no tasks
? 1
$ rt_sim certify two.set --jobs 1 --period 10 2>&1 | sed -n 1p
  rt_sim: image: BadMagic
? 1
$ rt_sim certify two.set --jobs 1 --where 2>&1 | sed -n 1p
  rt_sim: image: BadMagic
? 1
$ rt_sim certify two.set --jobs 1 --where --except 0 2> told
? 2
