# Profiles, worked out by hand.

# It asks for the next multiple of its period each time.
file beat.s _start: begin: _begin: addi x17,x0,2\nagain: addi x10,x10,10\necall\njal x0,0x80000004\n
file beat.set hyper 10\ntask 3 10 0 64 beat.rti\n
# It jumps to address 0.
file jump-out.rti RTI1\0\0\0\x80\x04\0\0\0\0\0\0\0g\0\0\0
file jump-out.set hyper 1\ntask 1 1 2 64 jump-out.rti\n
# It ends at once.
file ended.s _start: start: addi x17,x0,0\necall\n
file ended.set hyper 1\ntask 1 1 0 64 ended.rti\n
# Its jobs need as many ticks as a table says, which is behind its code: 31, 32, 33, 63, 64, 100, 272 and 1,000.
file longer.s
  _start: addi x17,x0,2
  auipc x5,0x00000
  addi x5,x5,44
  lw x6,0(x5)
  lw x7,4(x5)
  addi x5,x5,8
  addi x6,x6,-1
  bne x6,x0,0x80000018
  jalr x0,0(x7)
  addi x0,x0,0
  ecall
  jal x0,0x8000000c
  .word 0x0000000b, 0x80000024, 0x0000000d, 0x80000028, 0x0000000d, 0x80000024, 0x0000001c, 0x80000024, 0x0000001d, 0x80000028, 0x0000002f, 0x80000028, 0x00000085, 0x80000028, 0x000001f1, 0x80000028, 0x7fffffff, 0x80000028
file longer.set hyper 1\ntask 1 1 0 120 longer.rti\n
file two.set hyper 10\ntask 3 10 0 64 beat.rti\ntask 3 10 0 64 beat.rti\n

case rows
$ rt_sim profile beat.rts --ticks 37
  task       address         ticks       entered          most  name
     0      80000000             1             1             1  begin
     0      80000004            11             4             3  again
  idle            25
$ rt_sim profile jump-out.rts --ticks 10
  task       address         ticks       entered          most  name
     0             -             2             0             2  -
  idle             8
$ rt_sim profile beat.rts --ticks 0
  task       address         ticks       entered          most  name
  idle             0
$ rt_sim profile ended.rts --ticks 1099511627776
  task       address         ticks       entered          most  name
     0      80000000             2             1             2  start
  idle 1099511627774
$ rt_sim profile two.rts --ticks 10
  task       address         ticks       entered          most  name
     0      80000000             1             1             1  begin
     0      80000004             2             1             2  again
     1      80000000             1             1             1  begin
     1      80000004             2             1             2  again
  idle             4

case ticks by address
$ rt_sim profile beat.rts --ticks 37 --callgrind
  # callgrind format
  version: 1
  creator: rt_sim
  positions: instr
  events: Ticks
  
  ob=task0
  fl=task0
  fn=begin
  0x80000000 1
  fn=again
  0x80000004 4
  0x80000008 4
  0x8000000c 3
  
  totals: 12
$ rt_sim profile jump-out.rts --ticks 10 --callgrind
  # callgrind format
  version: 1
  creator: rt_sim
  positions: instr
  events: Ticks
  
  ob=task0
  fl=task0
  fn=???
  0x00000000 1
  0x80000000 1
  
  totals: 2
$ rt_sim profile beat.rts --ticks 0 --callgrind
  # callgrind format
  version: 1
  creator: rt_sim
  positions: instr
  events: Ticks
  
  totals: 0

case needs
$ rt_sim profile beat.rts --ticks 37 --needs
  task          from            to          jobs        within
     0             3             3             4             4
$ rt_sim profile jump-out.rts --ticks 10 --needs
  task          from            to          jobs        within
$ rt_sim profile beat.rts --ticks 0 --needs
  task          from            to          jobs        within
$ rt_sim profile longer.rts --ticks 2000 --needs
  task          from            to          jobs        within
     0            31            31             1             1
     0            32            33             2             3
     0            62            63             1             4
     0            64            67             1             5
     0           100           103             1             6
     0           272           287             1             7
     0           992          1023             1             8
