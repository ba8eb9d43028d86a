# Windows of runs as value change dumps, worked out by hand.

file times.awk
  # what changes at each time, in a line
  /^#/ { if (line) print line; line = $0; next }
  line { line = line " " $0 }
  END { print line }
# The objects but the last one have no symbols.
file loop.rti RTI1\0\0\0\x80\x04\0\0\0\0\0\0\0o\0\0\0
# It sleeps until tick 8 at tick 3, and goes on in a circle.
# addi x17,x0,2; addi x10,x0,8; addi x11,x0,0; ecall; jal x0,0x80000010
file sleeper.rti RTI1\0\0\0\x80\x14\0\0\0\0\0\0\0\x93\x08 \0\x13\x05\x80\0\x93\x05\0\0s\0\0\0o\0\0\0
file sleeper.set hyper 10\ntask 5 10 0 64 sleeper.rti\n
# It yields at tick 1, and meets zeros at tick 2.
# addi x17,x0,3; ecall
file yield.rti RTI1\0\0\0\x80\x08\0\0\0\0\0\0\0\x93\x080\0s\0\0\0
file yield.set hyper 10\ntask 5 10 0 64 yield.rti\n
# Each goes in a circle of one instruction.
file busy.set hyper 12\ntask 1 3 0 64 loop.rti\ntask 2 4 0 64 loop.rti\n
# Four instructions, in two parts.
file parts.s _start: a: addi x0,x0,0\naddi x0,x0,0\nb: addi x0,x0,0\naddi x0,x0,0\n
file parts.set hyper 1\ntask 1 1 0 64 parts.rti\n
# It ends at tick 1.
# addi x17,x0,0; ecall
file ended.rti RTI1\0\0\0\x80\x08\0\0\0\0\0\0\0\x93\x08\0\0s\0\0\0
file ended.set hyper 10\ntask 5 10 0 64 ended.rti\n

case the head of one task, and of two
$ rt_sim vcd sleeper.rts --ticks 9 | sed '/^#/,$d'
  $timescale 1 ns $end
  $scope module system $end
  $var wire 1 i idle $end
  $scope module task0 $end
  $var wire 1 r0 running0 $end
  $var reg 2 m0 mode0 [1:0] $end
  $var reg 32 p0 pc0 [31:0] $end
  $var reg 32 s0 part0 [31:0] $end
  $var integer 32 c0 c0 $end
  $var integer 64 d0 d0 $end
  $var integer 32 o0 out0 $end
  $var wire 1 f0 fresh0 $end
  $var wire 1 k0 kept0 $end
  $var wire 1 x0 postponed0 $end
  $var wire 1 j0 finish0 $end
  $upscope $end
  $upscope $end
  $enddefinitions $end
$ rt_sim vcd busy.rts --ticks 12 | sed '/^#/,$d'
  $timescale 1 ns $end
  $scope module system $end
  $var wire 1 i idle $end
  $scope module task0 $end
  $var wire 1 r0 running0 $end
  $var reg 2 m0 mode0 [1:0] $end
  $var reg 32 p0 pc0 [31:0] $end
  $var reg 32 s0 part0 [31:0] $end
  $var integer 32 c0 c0 $end
  $var integer 64 d0 d0 $end
  $var integer 32 o0 out0 $end
  $var wire 1 f0 fresh0 $end
  $var wire 1 k0 kept0 $end
  $var wire 1 x0 postponed0 $end
  $var wire 1 j0 finish0 $end
  $upscope $end
  $scope module task1 $end
  $var wire 1 r1 running1 $end
  $var reg 2 m1 mode1 [1:0] $end
  $var reg 32 p1 pc1 [31:0] $end
  $var reg 32 s1 part1 [31:0] $end
  $var integer 32 c1 c1 $end
  $var integer 64 d1 d1 $end
  $var integer 32 o1 out1 $end
  $var wire 1 f1 fresh1 $end
  $var wire 1 k1 kept1 $end
  $var wire 1 x1 postponed1 $end
  $var wire 1 j1 finish1 $end
  $upscope $end
  $upscope $end
  $enddefinitions $end

case scopes: names that all differ, two tasks of one name that stand apart, and a name that is the other task's number
file differ.set hyper 4\ntask 1 4 0 64 parts.rti\ntask 1 4 0 64 loop.rti\n
file apart.set hyper 4\ntask 1 4 0 64 parts.rti\ntask 1 4 0 64 loop.rti\ntask 1 4 0 64 parts.rti\n
file number.s _start: task1: j task1\n
file number.set hyper 4\ntask 1 4 0 64 number.rti\ntask 1 4 0 64 loop.rti\n
$ for it in parts differ apart number; do rt_sim vcd $it.rts --ticks 1 | grep scope.module | cut -d' ' -f3 | xargs; done
  system a
  system a task1
  system task0 task1 task2
  system task0 task1

case a sleeper in windows
$ rt_sim vcd sleeper.rts --ticks 9 | awk -f times.awk
  #0 $dumpvars 0i 1r0 b1 m0 b10000000000000000000000000000000 p0 b0 s0 b101 c0 b1010 d0 b0 o0 1f0 0k0 0x0 0j0 $end
  #1 b10000000000000000000000000000100 p0 b100 c0 0f0
  #2 b10000000000000000000000000001000 p0 b11 c0
  #3 b10000000000000000000000000001100 p0 b10 c0 1j0
  #4 1i 0r0 b0 m0 b10000000000000000000000000010000 p0 b1 c0 0j0
  #8 0i 1r0 b1 m0 b101 c0 b10010 d0 1f0
  #9
$ rt_sim vcd sleeper.rts --ticks 2 --from 5 | awk -f times.awk
  #5 $dumpvars 1i 0r0 b0 m0 b10000000000000000000000000010000 p0 b0 s0 b1 c0 b1010 d0 b0 o0 0f0 0k0 0x0 0j0 $end
  #7
$ rt_sim vcd sleeper.rts --ticks 1 --from 8 | awk -f times.awk
  #8 $dumpvars 0i 1r0 b1 m0 b10000000000000000000000000010000 p0 b0 s0 b101 c0 b10010 d0 b0 o0 1f0 0k0 0x0 0j0 $end
  #9

case two tasks that never sleep: task 0 runs at 0, 3, 6, 7 and 10
$ rt_sim vcd busy.rts --ticks 12 | awk -f times.awk
  #0 $dumpvars 0i 1r0 b1 m0 b10000000000000000000000000000000 p0 b0 s0 b1 c0 b11 d0 b0 o0 1f0 0k0 1x0 0j0 0r1 b1 m1 b10000000000000000000000000000000 p1 b0 s1 b10 c1 b100 d1 b0 o1 1f1 0k1 0x1 0j1 $end
  #1 0r0 b110 d0 0f0 0x0 1r1 0f1
  #2 b1 c1 1x1
  #3 1r0 1x0 0r1 b10 c1 b1000 d1 0x1
  #4 0r0 b1001 d0 0x0 1r1
  #5 b1 c1 1x1
  #6 1r0 1x0 0r1 b10 c1 b1100 d1 0x1
  #7 b1100 d0
  #8 0r0 b1111 d0 0x0 1r1
  #9 b1 c1 1x1
  #10 1r0 1x0 0r1 b10 c1 b10000 d1 0x1
  #11 0r0 b10010 d0 0x0 1r1
  #12

case a yield, in hundreds of picoseconds
$ rt_sim vcd yield.rts --ticks 4 --from 1 --timescale 100ps | sed -n 1p
  $timescale 100 ps $end
$ rt_sim vcd yield.rts --ticks 4 --from 1 --timescale 100ps | awk -f times.awk
  #1 $dumpvars 0i 1r0 b1 m0 b10000000000000000000000000000100 p0 b0 s0 b100 c0 b1010 d0 b0 o0 0f0 0k0 1x0 0j0 $end
  #2 b10000000000000000000000000001000 p0 b101 c0 b10100 d0 0x0
  #3 1i 0r0 b11 m0 b100 c0
  #5

case two parts, in tens of seconds
$ rt_sim vcd parts.rts --ticks 4 --from 0 --timescale 10s | sed -n 1p
  $timescale 10 s $end
$ rt_sim vcd parts.rts --ticks 4 --timescale 10s | awk -f times.awk
  #0 $dumpvars 0i 1r0 b1 m0 b10000000000000000000000000000000 p0 b10000000000000000000000000000000 s0 b1 c0 b1 d0 b0 o0 1f0 0k0 1x0 0j0 $end
  #1 b10000000000000000000000000000100 p0 b10 d0 0f0
  #2 b10000000000000000000000000001000 p0 b10000000000000000000000000001000 s0 b11 d0
  #3 b10000000000000000000000000001100 p0 b100 d0
  #4

case an end, and all other ticks
$ rt_sim vcd ended.rts --ticks 1099511627775 --from 1 | awk -f times.awk
  #1 $dumpvars 0i 1r0 b1 m0 b10000000000000000000000000000100 p0 b0 s0 b100 c0 b1010 d0 b0 o0 0f0 0k0 0x0 1j0 $end
  #2 1i 0r0 b10 m0 b10000000000000000000000000001000 p0 b11 c0 0j0
  #1099511627776

case codes of ten and more
# Eleven tasks, of which task t runs at tick t.
$ (echo hyper 11; yes task 1 11 0 64 loop.rti | head -11) > in.set; rt_sim pack in.set in.rts
$ rt_sim vcd in.rts --ticks 11 | grep -A1 -e 'running1 ' -e 'module task10 '
  $var wire 1 r1 running1 $end
  $var reg 2 m1 mode1 [1:0] $end
  --
  $scope module task10 $end
  $var wire 1 r10 running10 $end
$ rt_sim vcd in.rts --ticks 11 | awk -f times.awk | tail -2
  #10 0r9 b10110 d9 0x9 1r10 1x10
  #11
