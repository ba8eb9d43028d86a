# What examples/c/callers finds in a trace, counted by hand. `call`, `tail` and `la` have two instructions each.

# It recurses once, jumps to inner in place of a call, comes from falls to the function behind it, has its frame made and given up by
# others (as gcc's -msave-restore does), and leaves two calls at once by a longjmp.
file calls.s
  _start: lui sp, 0x80001
  call main
  li a7, 0
  ecall
  main: addi sp, sp, -16
  sw ra, 12(sp)
  li a0, 2
  call down
  call outer
  call falls
  call saves
  call setjmp
  bnez a0, 0x80000054
  call throws
  lw ra, 12(sp)
  addi sp, sp, 16
  ret
  down: addi sp, sp, -16
  sw ra, 12(sp)
  addi a0, a0, -1
  beqz a0, 0x80000078
  call down
  lw ra, 12(sp)
  addi sp, sp, 16
  ret
  outer: tail inner
  inner: ret
  falls: nop
  next: ret
  saves: jal t0, save
  j restore
  save: addi sp, sp, -16
  sw ra, 12(sp)
  jr t0
  restore: lw ra, 12(sp)
  addi sp, sp, 16
  ret
  setjmp: la t1, buffer
  sw ra, 0(t1)
  sw sp, 4(t1)
  li a0, 0
  ret
  throws: addi sp, sp, -16
  call longjmp
  longjmp: la t1, buffer
  lw ra, 0(t1)
  lw sp, 4(t1)
  li a0, 1
  ret
  buffer: .word 0, 0
file calls.set hyper 1\ntask 1 1 0 4096 calls.rti\n
# It calls near, which jumps to it in place of a call, and is called again; that call comes back to behind, which jumps to address 0.
file lost.s
  _start: lost: call near
  behind: jr x0
  near: bnez a0, 0x8000001c
  li a0, 1
  tail lost
  ret
file end.s _start: end: ecall\n
file two.set hyper 2\ntask 1 2 0 64 end.rti\ntask 1 2 0 64 lost.rti\n

case calls, with their ticks and those of what they call
$ rt_sim trace calls.rts --ticks 100 | callers | awk '/^c?fn=/ {name[$1 ~ /^c/] = $1} /^calls=/ {count = $1; getline; print name[0], name[1], count, $3}'
  fn=_start cfn=main calls=1 64
  fn=main cfn=down calls=1 16
  fn=main cfn=outer calls=1 3
  fn=main cfn=falls calls=1 2
  fn=main cfn=saves calls=1 8
  fn=main cfn=setjmp calls=1 6
  fn=main cfn=throws calls=1 9
  fn=down cfn=down calls=1 7
  fn=outer cfn=inner calls=1 1
  fn=falls cfn=next calls=1 1
  fn=saves cfn=save calls=1 3
  fn=saves cfn=restore calls=1 3
  fn=throws cfn=longjmp calls=1 6
! task0: stack from 80001000 to 80000fd0, 48 bytes: _start main down down

case calls that are open at the last tick
$ rt_sim trace calls.rts --ticks 13 | callers | awk '/^c?fn=/ {name[$1 ~ /^c/] = $1} /^calls=/ {count = $1; getline; print name[0], name[1], count, $3}'
  fn=_start cfn=main calls=1 10
  fn=main cfn=down calls=1 5
! task0: stack from 80001000 to 80000fe0, 32 bytes: _start main down

case two tasks
$ rt_sim trace two.rts --ticks 20 | callers
  # callgrind format
  version: 1
  creator: callers
  positions: instr line
  events: Ticks
  
  ob=end
  fl=end
  fn=end
  0x80000000 0 1
  
  ob=lost
  fl=lost
  fn=???
  0x00000000 0 1
  fl=lost
  fn=lost
  0x80000000 0 2
  0x80000004 0 2
  cfi=lost
  cfn=near
  calls=2 0x8000000c 0
  0x80000004 0 12
  cfi=lost
  cfn=behind
  calls=1 0x80000008 0
  0x80000004 0 2
  fl=lost
  fn=behind
  0x80000008 0 1
  cfi=lost
  cfn=???
  calls=1 0x00000000 0
  0x80000008 0 1
  fl=lost
  fn=near
  0x8000000c 0 2
  0x80000010 0 1
  0x80000014 0 1
  0x80000018 0 1
  cfi=lost
  cfn=lost
  calls=1 0x80000000 0
  0x80000018 0 6
  0x8000001c 0 1
  
  totals: 13

case no such task, and no such file
$ rt_sim trace two.rts --ticks 20 | callers 2=end.elf
! callers: the trace has no ticks of task 2
? 1
$ rt_sim trace two.rts --ticks 20 | callers lost=end.elf
! callers: end.elf: can't be read
? 1
