# The largest sources, objects and sets, the longest answers, and the longest ways back: each text is computed beside.

# It jumps to itself, in 1,048 bytes; it ends at its first tick.
file spin.s _start: j _start\n.zero 1044\n
file end.s _start: ecall\n

case as many stops as a session takes
# all stops but the last are at the second word, and the last is at the first
file two.s _start: j _start\nnext: j next\n
file two.set hyper 1\ntask 1 1 0 64 two.rti\n
file last
  break 0 0x80000000
  break 0 0x80000000
  continue 3
  delete 65535
  break 0 0x80000000
  continue 3
$ (yes 'break 0 0x80000004' | head -65534; cat last) | rt_sim debug two.rts > said
+ head -65534 said | cmp - <(seq -f 'break %.0f 0 80000004' 65534)
+ tail -6 said
  break 65535 0 80000000
  refused 7 TooManyStops
  stop 65535 tick 1 next 0 80000000
  deleted 65535
  refused 7 TooManyStops
  no stop tick 4 next 0 80000000

case a way back of 3,000,000 ticks
# it counts its jobs in x5, and sleeps to the next multiple of 1,000 ticks
file counter.s _start: addi x5,x5,1\naddi x10,x10,1000\naddi x17,x0,2\necall\nj _start\n
file in.set hyper 1\ntask 1 1 0 64 counter.rti\n
$ rt_sim debug in.rts
> step 3000101             tick 3000101 next idle
> regs 0                   pc 80000010 regs x5=00000bb9 x10=002dcaa8 x17=00000002
> trace 2                  3000004 0 8000000c 00000073 sleep 3001000
  3000005 idle 96
> back 3000050             tick 51 next idle
> regs 0                   pc 80000010 regs x5=00000001 x10=000003e8 x17=00000002
> trace 2                  3 0 8000000c 00000073 sleep 1000
  4 idle 47
> step 3000050             tick 3000101 next idle
> back 3000101             tick 0 next 0 80000000
> trace 1                  empty

case ways back past 2^32
# it sleeps until tick 4999999995, asks for the tick, and jumps to itself
file sleeper.s _start: lui x10,0x2a05f\naddi x10,x10,507\naddi x11,x0,1\naddi x17,x0,2\necall\naddi x17,x0,4\necall\nhere: j here\n
file in.set hyper 1\ntask 1 1 0 64 sleeper.rti\n
$ rt_sim debug in.rts
> step 5000000000          tick 5000000000 next 0 8000001c
> regs 0                   pc 8000001c regs x10=2a05f1fc x11=00000001 x17=00000004
> back 4                   tick 4999999996 next 0 80000018
> back 6                   tick 4999999990 next idle
> step 10                  tick 5000000000 next 0 8000001c
> trace 4                  4999999996 0 80000018 00000073 now 4999999996
  4999999997 0 8000001c 0000006f next
  4999999998 0 8000001c 0000006f next
  4999999999 0 8000001c 0000006f next
> back 4999999995          tick 5 next idle
> back 5                   tick 0 next 0 80000000
> trace 1                  empty

case the longest answers of the debugger
# 31 words put 1 to 31 into x1 to x31, and 33 jump to themselves
$ (echo _start:; for it in $(seq 31); do echo "addi x$it,x0,$it"; done; for it in $(seq 33); do echo "l$it: j l$it"; done) > in.s
+ rt_sim asm in.s in.rti
+ (echo hyper 1; echo task 1 1 0 256 in.rti) > in.set
+ rt_sim pack in.set in.rts
$ echo mem 0 0x80000000 256 | rt_sim debug in.rts > said
+ (for it in $(seq 31); do printf '%08x' $((it << 20 | it << 7 | 0x13)) | sed 's/\(..\)\(..\)\(..\)\(..\)/\4\3\2\1/'; done; printf '6f000000%.0s' $(seq 33)) | tr -d '\n' | sed 's/^/mem 80000000 /; s/$/\n/' | cmp - said
$ echo list 0 0x80000000 64 | rt_sim debug in.rts > said
+ (for it in $(seq 31); do printf '%08x %08x addi x%d,x0,%d\n' $((0x7ffffffc + 4 * it)) $((it << 20 | it << 7 | 0x13)) $it $it; done; for it in $(seq 31 63); do printf '%08x 0000006f jal x0,0x%08x\n' $((0x80000000 + 4 * it)) $((0x80000000 + 4 * it)); done) | cmp - said
$ (echo step 300; echo trace 256) | rt_sim debug in.rts > said
+ (echo tick 300 next 0 8000007c; seq -f '%.0f 0 8000007c 0000006f next' 44 299) | cmp - said
$ (echo step 31; echo regs 0) | rt_sim debug in.rts > said
+ (echo tick 31 next 0 8000007c; printf 'pc 8000007c regs'; for it in $(seq 31); do printf ' x%d=%08x' $it $it; done; echo) | cmp - said

case the most RAM is shown
file in.s _start: lui x5,0x80100\nsw x5,-4(x5)\n
file in.set hyper 1\ntask 1 1 0 1048576 in.rti\n
$ rt_sim debug in.rts
> step 2                   tick 2 next 0 80000008
> mem 0 0x800ffff8 8       mem 800ffff8 0000000000001080
> back 1                   tick 1 next 0 80000004
> mem 0 0x800ffff8 8       mem 800ffff8 0000000000000000

case the longest output
# it writes its image of 256 bytes again and again, 5 ticks a time; the last write is refused
file in.s _start: lui x10,0x80000\naddi x11,x0,256\naddi x17,x0,1\nagain: ecall\nj _start\n.zero 235\n.byte 0xa5\n
file in.set hyper 1\ntask 1 1 0 256 in.rti\n
$ (echo step 1284; echo trace 1; echo out 0) | rt_sim debug in.rts > said; head -2 said
  tick 1284 next 0 80000010
  1283 0 8000000c 00000073 write refused
$ once=370500809305001093081000730000006ff01fff$(printf '00%.0s' $(seq 235))a5
+ (printf 'out 65536 '; for it in $(seq 256); do printf $once; done; echo) | cmp - <(sed 1,2d said)

case the largest object is assembled, listed and run
# 65,536 labels and 1,048,576 bytes: with _start there are 13,107 lines of five labels and 80 bytes
$ python3 large.py
$ rt_sim asm in.s out && cmp out object
$ rt_sim dis object | cmp - listing
$ rt_sim solo object --ticks 2 --ram 1048576
  0 0 80000000 801002b7 next
  1 0 80000004 ffc2a303 next
  after 2
  task 0 active pc 80000008
  regs x5=80100000 x6=12345678
  out 0
$ rt_sim asm in.s out --name x
! rt_sim: name x: TooMany
!   the object has 65536 symbols: leave --name out
? 1
# its programs: how many lines each prints at least
$ for it in 'show object' 'dis object' 'solo object --ram 1048576 --ticks 2 --quiet' 'solo object --ram 1048576 --ticks 2 --out'; do
+   rt_sim $it | wc -l
+ done
  65538
  327680
  4
  0
$ (echo hyper 1; echo task 1 1 0 1048576 object) > in.set; rt_sim pack in.set in.rts
$ for it in run 'run --quiet' 'run --out 0' report 'jobs --open' chart profile 'profile --needs' 'profile --callgrind' vcd trace; do
+   echo $it $(rt_sim $it in.rts --ticks 2 | wc -l)
+ done
+ rt_sim check in.rts
+ rt_sim show in.rts | wc -l
  run 6
  run --quiet 4
  run --out 0 0
  report 3
  jobs --open 2
  chart 67
  profile 3
  profile --needs 1
  profile --callgrind 13
  vcd 38
  trace 2
  admitted 1 of 1
  4
$ (echo step 2; echo quit) | rt_sim debug in.rts
  tick 2 next 0 80000008
$ rt_sim gdb in.rts
> qfThreadInfo             +$m1
file large.py
  symbols = sorted(["_start"] + [f"l{line:05}{label}" for line in range(13107) for label in range(5)])
  address = {it: 0x80000000 if it == "_start" else 0x80000008 + 80 * int(it[1:6]) for it in symbols}
  first, last, nop = "lui x5,0x80100", "lw x6,-4(x5)", ".word 0x00000000"
  lines = ["".join(f"l{line:05}{label}: " for label in range(5)) + ".space 80" for line in range(13107)]
  open("in.s", "w").write("\n".join([f"_start: {first}", last, *lines, ".space 4", ".word 0x12345678", ""]))
  image = bytes.fromhex("b702108003a3c2ff") + bytes(1048576 - 12) + bytes.fromhex("78563412")
  table = b"".join(len(it).to_bytes(2, "little") + it.encode() + address[it].to_bytes(4, "little") for it in symbols)
  open("object", "wb").write(b"RTI1\0\0\0\x80\0\0\x10\0\0\0\1\0" + image + table)
  words = {0: (first, 0x801002B7), 4: (last, 0xFFC2A303), 0xFFFFC: (".word 0x12345678", 0x12345678)}
  labels = {}
  for it in symbols:
      labels.setdefault(address[it] - 0x80000000, []).append(f"{it}:\n")
  with open("listing", "w") as listing:
      for at in range(0, 1048576, 4):
          text, word = words.get(at, (nop, 0))
          listing.write("".join(labels.get(at, [])) + f"    {text} # {0x80000000 + at:08x} {word:08x}\n")

case many labels in a line, and many lines
file five.s _start: a: b: c: d: nop\n
file five RTI1\0\0\0\x80\x04\0\0\0\x05\0\0\0\x13\0\0\0\x06\0_start\0\0\0\x80\x01\0a\0\0\0\x80\x01\0b\0\0\0\x80\x01\0c\0\0\0\x80\x01\0d\0\0\0\x80
file one RTI1\0\0\0\x80\x04\0\0\0\x01\0\0\0\x13\0\0\0\x06\0_start\0\0\0\x80
$ cmp five.rti five; (yes '' | head -1099999; echo _start: nop) > in; rt_sim asm in out && cmp out one

case many names of one address
$ (printf 'RTI1\0\0\0\x80\x08\0\0\0\0\x20\0\0\x93\x08\0\0s\0\0\0'; for it in $(seq 0 8191); do printf '\x06\0n%05d\0\0\0\x80' $it; done) > in
+ rt_sim certify in --budget 2 --period 10 --jobs 1
  certified 1 longest 2 distance - ended
# 16 bytes, the image, and a length, a name and an address for each
$ seq -f '80000000 T n%05.0f' 0 65535 > nm; printf 'o\0\0\0' > in; rt_sim image in out --symbols nm; echo $(wc -c < out) $((16 + 4 + 65536 * 12))
  786452 786452

case a set of 256 tasks
$ (echo hyper 64; yes task 1 64 0 2048 spin.rti | head -256) > in.set
+ rt_sim pack in.set out && python3 many.py One 256 | cmp - out
+ rt_sim convert out two && python3 many.py Two 256 | cmp - two
$ rt_sim check out
! rt_sim: set: TooMany
!   256 tasks, at most 64
!   rt_sim help TooMany
? 1
file many.py
  # the system of so many tasks of spin, in a version
  import sys
  version, count = sys.argv[1], int(sys.argv[2])
  words = [1, 64, 0, *([0] if version == "Two" else []), 2048, 1076]
  spin = b"RTI1\0\0\0\x80\x18\4\0\0\1\0\0\0o\0\0\0" + bytes(1044) + b"\6\0_start\0\0\0\x80"
  head = (b"RTS1" if version == "One" else b"RTS2") + b"\x40\0\0\0" + count.to_bytes(4, "little")
  sys.stdout.buffer.write(head + (b"".join(it.to_bytes(4, "little") for it in words) + spin) * count)

case a set of 64 tasks that jump to themselves
$ (echo hyper 64; yes task 1 64 0 2048 spin.rti | head -64) > in.set; rt_sim pack in.set in.rts; rt_sim check in.rts
  admitted 64 of 64
# each has its turn, so that tasks 0 and 1 have had three, and the others two
$ (for it in $(seq 0 129); do echo $it $((it % 64)) 80000000 0000006f next; done; echo after 130; for it in $(seq 0 63); do printf 'task %d active c 1 d %d pc 80000000\nregs\nout 0\n' $it $((it < 2 ? 256 : 192)); done) > wanted
+ rt_sim run in.rts --ticks 130 | cmp - wanted
$ for it in profile 'profile --needs' 'profile --callgrind' vcd trace 'jobs --wide --open'; do
+   echo $it $(rt_sim $it in.rts --ticks 130 | wc -l)
+ done
+ rt_sim show in.rts | wc -l
  profile 66
  profile --needs 1
  profile --callgrind 327
  vcd 2384
  trace 130
  jobs --wide --open 65
  130
$ rt_sim debug in.rts
> step 65                  tick 65 next 1 80000000
> server 63                task 63 active c 1 d 128 q 1 p 64
> server 64                refused 2 UnknownTask
> back 2                   tick 63 next 63 80000000
> server 63                task 63 active c 1 d 64 q 1 p 64
> regs 63                  pc 80000000 regs
$ echo '$qSupported:multiprocess+#c6$qfThreadInfo#bb' | rt_sim gdb in.rts | sed 's/.*+\$//' > said
+ (printf m; for it in $(seq 64); do printf 'p%x.%x,' $it $it; done) | sed 's/,$/#\n/' | cmp - <(grep -o '.*#' said)

case a set of 64 tasks that end
$ (echo hyper 64; yes task 1 64 0 2048 end.rti | head -64) > in.set; rt_sim pack in.set in.rts; rt_sim jobs in.rts --ticks 130 --wide | wc -l
  65
# each ends in its turn; then all ticks are idle, up to the last one that there is
$ (rt_sim report in.rts --ticks 0 | sed -n 1p; for it in $(seq 0 63); do printf '%4d             1             1%14d%14d             1             0\n' $it $((it + 1)) $((it + 1)); done; echo idle 1099511627712) > wanted
+ rt_sim report in.rts --ticks 1099511627776 | cmp - wanted

case sets that are refused with reasons
# of 64 tasks that ask for 2 ticks of 64, 32 have had theirs after 64 ticks
$ (echo hyper 64; yes task 2 64 0 2048 spin.rti | head -64) > in.set; rt_sim pack in.set in.rts; rt_sim check in.rts > said
! rt_sim: set: Overload total 128 hyper 64
!   rt_sim help Overload
? 1
$ (seq -f 'task %.0f weight 2' 0 63; echo breach task 32 c 2 d 64 tick 64) | cmp - said
$ (echo hyper 64; yes task 1 64 0 2048 spin.rti | head -65) > in.set; rt_sim pack in.set in.rts; rt_sim check in.rts 2>&1 | sed -n 1p
  rt_sim: set: TooMany
? 1

case a picture of as many ticks as one may have
# Two tasks take turns of 32 ticks. 100,000 is 1,562 times 64 and 32: so task 0 has a turn more, all of which use the budget up, and task 1
# waits once more. No job ends: from tick 64 on both are over the period, all turns but each task's first, and all waits but each task's
# first. Of the deadlines, 64 and so on, 1,562 are below 100,000.
file in.set hyper 64\ntask 32 64 0 2048 spin.rti\ntask 32 64 0 2048 spin.rti\n
$ rt_sim chart in.rts --ticks 100000 | grep -o '^<[a-z]* class="[^"]*" data-task="."' | sort | uniq -c
     1562 <path class="deadline" data-task="0"
     1562 <path class="deadline" data-task="1"
     1563 <path class="postponed" data-task="0"
     1562 <path class="postponed" data-task="1"
        1 <path class="wake fresh" data-task="0"
        1 <path class="wake fresh" data-task="1"
     1562 <rect class="run over" data-task="0"
     1561 <rect class="run over" data-task="1"
        1 <rect class="run" data-task="0"
        1 <rect class="run" data-task="1"
     1561 <rect class="wait over" data-task="0"
     1562 <rect class="wait over" data-task="1"
        1 <rect class="wait" data-task="0"
        1 <rect class="wait" data-task="1"
