# Reports and lists of jobs, worked out by hand.

file loop.s _start: jal x0,0x80000000\n
file end.s _start: ecall\n
# li a7,2; addi a0,a0,10; ecall; j to the addi: jobs of 3 ticks, each released 10 ticks after the one before
file beat.s _start: addi x17,x0,2\naddi x10,x10,10\necall\njal x0,0x80000004\n
file until8.s _start: addi x17,x0,2\naddi x10,x0,8\naddi x11,x0,0\necall\njal x0,0x80000010\n
file until9.s _start: addi x17,x0,2\naddi x10,x0,9\naddi x11,x0,0\necall\njal x0,0x80000010\n

case a task that sleeps until 8, and then jumps to itself
file in.set hyper 10\ntask 5 10 0 64 until8.rti\n
$ rt_sim report in.rts --ticks 12
  task          jobs         ticks           min           max          hard          late
     0             1             8             4             4             1             0
  idle             4

case two busy tasks
file in.set hyper 12\ntask 1 3 0 64 loop.rti\ntask 2 4 0 64 loop.rti\n
$ rt_sim report in.rts --ticks 12
  task          jobs         ticks           min           max          hard          late
     0             0             5             -             -             0             0
     1             0             7             -             -             0             0
  idle             0

case the same for 1,000 ticks
file in.set hyper 12\ntask 1 3 0 64 loop.rti\ntask 2 4 0 64 loop.rti\n
$ rt_sim report in.rts --ticks 1000
  task          jobs         ticks           min           max          hard          late
     0             0           400             -             -             0             0
     1             0           600             -             -             0             0
  idle             0

case a busy task, and one that sleeps until 9 at tick 8
file in.set hyper 10\ntask 5 10 0 64 loop.rti\ntask 5 10 0 64 until9.rti\n
$ rt_sim report in.rts --ticks 1000
  task          jobs         ticks           min           max          hard          late
     0             0           500             -             -             0             0
     1             1           500             9             9             1             0
  idle             0

case a periodic task
file in.set hyper 10\ntask 3 10 0 64 beat.rti\n
$ rt_sim report in.rts --ticks 100
  task          jobs         ticks           min           max          hard          late
     0            10            30             3             3            10             0
  idle            70

case a task that ends, and the idle ticks up to the last
file in.set hyper 10\ntask 5 10 0 64 end.rti\n
$ rt_sim report in.rts --ticks 1099511627776
  task          jobs         ticks           min           max          hard          late
     0             1             1             1             1             1             0
  idle 1099511627775

case a wide report
# It uses its budget of 3 ticks up in each period of 10, and wakes afresh at 0, 10, .. and 100.
file in.set hyper 10\ntask 3 10 0 64 beat.rti\n
$ rt_sim report in.rts --ticks 100 --wide
  task          jobs         ticks           min           max          hard          late            stands          most          over         fresh          kept     postponed        yields        budget        period  name
     0            10            30             3             3            10             0            active             3             0            11             0            10             0             3            10  task0
  idle            70

case a hard job of an overloaded set may be late
# Two tasks each of whose jobs takes 3 ticks of 4. Task 1 is executed from tick 3 on; its first job finishes at tick 5: a hard job with
# a response of 6, over its period.
file a.s _start: addi x17,x0,2\naddi x10,x10,4\necall\njal x0,0x80000004\n
file in.set hyper 4\ntask 3 4 0 64 a.rti\ntask 3 4 0 64 a.rti\n
$ rt_sim report in.rts --ticks 6 --overloaded
  task          jobs         ticks           min           max          hard          late
     0             1             3             3             3             1             0
     1             1             3             6             6             1             1
  idle             0
! rt_sim: not admitted: total 6 of 4; nothing is promised
$ rt_sim jobs in.rts --ticks 6 --overloaded --wide
  task,job,release,finish,response,ticks,fresh,calm,hard,late,start,budget,deadline,interrupted,period,over,name
  0,0,0,2,3,3,true,true,true,false,0,3,4,0,4,false,task0
  1,0,0,5,6,3,true,true,true,true,3,3,4,0,4,true,task1
! rt_sim: not admitted: total 6 of 4; nothing is promised

case two periodic tasks
# Each wakes afresh at 10: 20 * 3 <= 3 * 10 + 10 * 3. The rows: two jobs of each task, of 3 and of 6 ticks from their releases on.
file in.set hyper 10\ntask 3 10 0 64 beat.rti\ntask 3 10 0 64 beat.rti\n
$ rt_sim jobs in.rts --ticks 20
  task,job,release,finish,response,ticks,fresh,calm,hard,late
  0,0,0,2,3,3,true,true,true,false
  1,0,0,5,6,3,true,true,true,false
  0,1,10,12,3,3,true,true,true,false
  1,1,10,15,6,3,true,true,true,false
$ rt_sim jobs in.rts --ticks 20 --wide | tail -2
  0,1,10,12,3,3,true,true,true,false,10,3,20,0,10,false,task0
  1,1,10,15,6,3,true,true,true,false,13,3,20,0,10,false,task1
$ rt_sim report in.rts --ticks 20
  task          jobs         ticks           min           max          hard          late
     0             2             6             3             3             2             0
     1             2             6             6             6             2             0
  idle             8

case a busy task, and one whose sleep until 8 comes at tick 8: its second job is released to an active task
file a.s _start: addi x17,x0,2\naddi x10,x0,8\naddi x11,x0,0\necall\necall\n
file in.set hyper 10\ntask 5 10 0 64 loop.rti\ntask 5 10 0 64 a.rti\n
$ rt_sim jobs in.rts --ticks 10
  task,job,release,finish,response,ticks,fresh,calm,hard,late
  1,0,0,8,9,4,true,true,true,false
  1,1,8,9,2,1,false,true,false,false

case a yield at tick 1, and an end
file a.s _start: addi x17,x0,3\necall\naddi x17,x0,0\necall\n
file in.set hyper 10\ntask 5 10 0 64 a.rti\n
$ rt_sim jobs in.rts --ticks 1099511627776
  task,job,release,finish,response,ticks,fresh,calm,hard,late
  0,0,0,3,4,4,true,false,false,false

case a job that is never finished
file in.set hyper 10\ntask 5 10 0 64 loop.rti\n
$ rt_sim jobs in.rts --ticks 100
  task,job,release,finish,response,ticks,fresh,calm,hard,late

case an illegal word
file a.s _start: .word 0x00000000\n
file in.set hyper 10\ntask 5 10 0 64 a.rti\n
$ rt_sim jobs in.rts --ticks 100
  task,job,release,finish,response,ticks,fresh,calm,hard,late
