# Files that are made, listed and shown, against bytes that were written by hand.

file source _start: addi x1,x0,-1\nx: jal x0,x\n
file a RTI1\0\0\0\x80\x08\0\0\0\0\0\0\0\x93\0\xf0\xffo\0\0\0
file b RTI1\0\0\0\x80\x04\0\0\0\0\0\0\0o\0\0\0
file one RTS1\x0c\0\0\0\x01\0\0\0\x01\0\0\0\x03\0\0\0\0\0\0\0@\0\0\0\x18\0\0\0RTI1\0\0\0\x80\x08\0\0\0\0\0\0\0\x93\0\xf0\xffo\0\0\0
file set hyper 12\ntask 1 3 0 64 a\n
file flat \x93\0\xf0\xffo\0\0\0
file names 80000004 t x\n80000000 T _start\n
# the object of source, and the system of set, of no version and of each
file assembled RTI1\0\0\0\x80\x08\0\0\0\x02\0\0\0\x93\0\xf0\xffo\0\0\0\x06\0_start\0\0\0\x80\x01\0x\x04\0\0\x80
file converted RTS2\x0c\0\0\0\x01\0\0\0\x01\0\0\0\x03\0\0\0\0\0\0\0\0\0\0\0@\0\0\0\x18\0\0\0RTI1\0\0\0\x80\x08\0\0\0\0\0\0\0\x93\0\xf0\xffo\0\0\0

case a source
$ rt_sim asm source out && cmp out assembled
$ rt_sim asm source a && cmp a assembled
# a file that a killed run has left beside it is passed over
$ mkdir left; echo RTI1 > left/.rt_sim.part0; rt_sim asm source left/out && cmp left/out assembled; ls -A left; cat left/.rt_sim.part0
  .rt_sim.part0
  out
  RTI1
# a file may have a part's name, and isn't its own part
$ mkdir own; rt_sim asm source own/.rt_sim.part0 && cmp own/.rt_sim.part0 assembled; ls -A own
  .rt_sim.part0

case a flat image, with its symbols, and from its second word on without
file second RTI1\x04\0\0\x80\x08\0\0\0\0\0\0\0\x93\0\xf0\xffo\0\0\0
$ rt_sim image flat 1 --symbols names && cmp 1 assembled
$ rt_sim image --entry 0x80000004 flat 1 && cmp 1 second

case names that are left out are counted
file more-names 80000000 t x-1\n80000004 t x\n80000000 T _start\n80000000 A x\n
$ rt_sim image flat 1 --symbols more-names && cmp 1 assembled
! rt_sim: names left out: 2
!   x-1 x

case an ELF file of one segment of 8 bytes, of which it holds the first 4: a jump to itself
file elf \x7fELF\x01\x01\x01\0\0\0\0\0\0\0\0\0\x02\0\xf3\0\x01\0\0\0\0\0\0\x804\0\0\0\0\0\0\0\0\0\0\x004\0 \0\x01\0(\0\0\0\0\0\x01\0\0\0T\0\0\0\0\0\0\x80\0\0\0\x80\x04\0\0\0\x08\0\0\0\x07\0\0\0\x04\0\0\0o\0\0\0
file wanted RTI1\0\0\0\x80\x08\0\0\0\0\0\0\0o\0\0\0\0\0\0\0
$ rt_sim elf elf 1 && cmp 1 wanted
$ rt_sim elf --name pid elf out; rt_sim show out
  # object
  #   image 8 bytes, entry 80000000 pid, 1 symbols
  80000000 pid

case sets
file sets hyper 12\ntask 2 3 0 64 a\ntask 2 4 0 64 b\n
file two RTS1\x0c\0\0\0\x02\0\0\0\x02\0\0\0\x03\0\0\0\0\0\0\0@\0\0\0\x18\0\0\0RTI1\0\0\0\x80\x08\0\0\0\0\0\0\0\x93\0\xf0\xffo\0\0\0\x02\0\0\0\x04\0\0\0\0\0\0\0@\0\0\0\x14\0\0\0RTI1\0\0\0\x80\x04\0\0\0\0\0\0\0o\0\0\0
file split-set hyper 12\ntask-split 1 3 0 64 a\n
file split RTS2\x0c\0\0\0\x01\0\0\0\x01\0\0\0\x03\0\0\0\0\0\0\0\x01\0\0\0@\0\0\0\x18\0\0\0RTI1\0\0\0\x80\x08\0\0\0\0\0\0\0\x93\0\xf0\xffo\0\0\0
$ rt_sim pack set out && cmp out one
# it asks for 14 of 12 ticks, and was never admitted
$ rt_sim pack sets out && cmp out two
$ rt_sim pack split-set out && cmp out split

case a path is all behind the fifth space of its line
file spaced-set hyper 12\ntask 1 3 0 64 a \n
file front-set hyper 12\ntask 1 3 0 64  a\n
file alone-set hyper 12\ntask 1 3 0 64 alone \n
file spaced RTS1\x0c\0\0\0\x01\0\0\0\x01\0\0\0\x03\0\0\0\0\0\0\0@\0\0\0\x14\0\0\0RTI1\0\0\0\x80\x04\0\0\0\0\0\0\0o\0\0\0
$ cp b 'a '; cp b ' a'; cp b 'alone '; for it in spaced front alone; do rt_sim pack $it-set out && cmp out spaced; done

case version Two, without and with its flag
file split RTS2\x0c\0\0\0\x01\0\0\0\x01\0\0\0\x03\0\0\0\0\0\0\0\x01\0\0\0@\0\0\0\x18\0\0\0RTI1\0\0\0\x80\x08\0\0\0\0\0\0\0\x93\0\xf0\xffo\0\0\0
$ for it in one converted; do rt_sim convert $it out && cmp out converted; done; rt_sim convert split out && cmp out split

case what is not converted
file 0 RTS3
file 1 RTS2\x0c\0\0\0\x01\0\0\0\x01\0\0\0\x03\0\0\0\0\0\0\0\x02\0\0\0@\0\0\0\x18\0\0\0RTI1\0\0\0\x80\x08\0\0\0\0\0\0\0\x93\0\xf0\xffo\0\0\0
file 2 RTS2\x0c\0\0\0\x01\0\0\0
file 3 RTS1\x0c\0\0\0\0\0\0\0\0
$ for it in 0 1 2 3; do rt_sim convert $it out 2>&1 | sed -n 1p; done; ls out
  rt_sim: image: BadMagic
  rt_sim: image: BadField
  rt_sim: image: Truncated
  rt_sim: image: Trailing
! ls: cannot access 'out': No such file or directory
? 2

case a listing
$ rt_sim dis a
      addi x1,x0,-1 # 80000000 fff00093
      jal x0,0x80000004 # 80000004 0000006f
# and of none of its beginnings
$ for it in $(seq 0 23); do head -c $it a > cut; rt_sim dis cut 2>&1 | sed -n 1p; done | sort | uniq -c
       24 rt_sim: image: Truncated
? 1

case what files hold
# `pid` names task 0; `_start` names none, so task 1 has no name, and its period doesn't divide 20
file 0 RTS1\x14\0\0\0\x02\0\0\0\x02\0\0\0\n\0\0\0\0\0\0\0\0\0\x01\0;\0\0\0RTI1\0\0\0\x80\x0c\0\0\0\x03\0\0\0\x13\0\0\0\x13\0\0\0\x13\0\0\0\x06\0_start\0\0\0\x80\x03\0pid\0\0\0\x80\x04\0tail\x08\0\0\x80\x01\0\0\0\x03\0\0\0\x05\0\0\0@\0\0\0 \0\0\0RTI1\0\0\0\x80\x04\0\0\0\x01\0\0\0\x13\0\0\0\x06\0_start\0\0\0\x80
$ rt_sim show 0
  # version One
  hyper 20
  task 2 10 0 65536 task0.rti
  #   image 12 bytes, entry 80000000 pid, 3 symbols, weight 4
  task 1 3 5 64 task1.rti
  #   image 4 bytes, entry 80000000 -, 1 symbols, weight -
# the weight of task 0 is (2^32 - 1)^2, and task 1 has no period
file 1 RTS2\xff\xff\xff\xff\x02\0\0\0\xff\xff\xff\xff\x01\0\0\0\0\0\0\0\x01\0\0\0\x04\0\0\0\x10\0\0\0RTI1\0\0\0\x80\0\0\0\0\0\0\0\0\0\0\0\0\0\0\0\0\x07\0\0\0\0\0\0\0\x08\0\0\0\x10\0\0\0RTI1\0\0\0\x80\0\0\0\0\0\0\0\0
$ rt_sim show 1
  # version Two
  hyper 4294967295
  task-split 4294967295 1 0 4 task0.rti
  #   image 0 bytes, entry 80000000 -, 0 symbols, weight 18446744065119617025
  task 0 0 7 8 task1.rti
  #   image 0 bytes, entry 80000000 -, 0 symbols, weight -
# symbols whose names and addresses rise differently, two of them at the entry
file 2 RTI1\x04\0\0\x80\x08\0\0\0\x04\0\0\0\x13\0\0\0\x13\0\0\0\x01\0a\x08\0\0\x80\x01\0b\x04\0\0\x80\x01\0c\0\0\0\x80\x01\0d\x04\0\0\x80
$ rt_sim show 2
  # object
  #   image 8 bytes, entry 80000004 b, 4 symbols
  80000000 c
  80000004 b
  80000004 d
  80000008 a

case what is not shown
file 0 RTI1\0\0\0\x80\0\0\0\0\0\0\0
file 1 RTI
file 2 RTS
file 3 RTS1\x14\0\0\0\0\0\0\0\n
$ for it in 0 1 2 3; do rt_sim show $it 2>&1 | sed -n 1p; done
  rt_sim: image: Truncated
  rt_sim: image: BadMagic
  rt_sim: image: Truncated
  rt_sim: image: Trailing
? 1

case sources that are refused
file 0 x: nop\nx: nop\n
file 1 nop\n
file 2 _start: addi x1,x0,2048\n
file 3 j there\n
file 4 nop\nj 0x80000003\n
file 5 .zero 1048576\n.byte 0\n
file 6 frob x1\n
file 7 li x1,012\n
$ for it in 0 1 2 3 4 5 6 7; do rt_sim asm $it out 2>&1 | sed -n 1p; done
  rt_sim: line 2: DuplicateLabel
  rt_sim: line 0: NoEntry
  rt_sim: line 1: OutOfRange
  rt_sim: line 1: UndefinedLabel
  rt_sim: line 2: OddTarget
  rt_sim: line 2: TooLarge
  rt_sim: line 1: UnknownName
  rt_sim: line 1: BadNumber
? 1

case what a program was built for
# What `as -march=rv32ima_zba -mabi=ilp32` of binutils 2.40 makes of `_start: li a7, 0` and `ecall`, and `ld -N` of that by the script
# `SECTIONS { .text 0x80000000 : { *(.text) } far = 0x90000000; }`. Its object leaves `far` out.
file hex
  7f454c460101010000000000000000000200f3000100000000000080340000008801000000000000340020000200280006000500030000707c00000000000000
  00000000340000000000000004000000010000000100000074000000000000800000008008000000080000000700000004000000930800007300000041330000
  0072697363760001290000000572763332693270315f6d3270305f613270315f7a6d6d756c3170305f7a62613170300000000000000000000000000000000000
  00000000000000800000000003000100000000000000000000000000030002000100000000000000000000000400f1ff05000000000000800000000000000100
  2a0000000000008000000000100001003100000000000090000000001000f1ff00742e6f00247872763332693270315f6d3270305f613270315f7a6d6d756c31
  70305f7a6261317030005f73746172740066617200002e73796d746162002e737472746162002e7368737472746162002e74657874002e72697363762e617474
  7269627574657300000000000000000000000000000000000000000000000000000000000000000000000000000000001b000000010000000700000000000080
  740000000800000000000000000000000400000000000000210000000300007000000000000000007c0000003400000000000000000000000100000000000000
  01000000020000000000000000000000b00000007000000004000000050000000400000010000000090000000300000000000000000000002001000035000000
  0000000000000000010000000000000011000000030000000000000000000000550100003300000000000000000000000100000000000000
file wanted RTI1\0\0\0\x80\x08\0\0\0\x01\0\0\0\x93\x08\0\0s\0\0\0\x06\0_start\0\0\0\x80
$ python3 -c 'import sys; sys.stdout.buffer.write(bytes.fromhex(sys.stdin.read()))' < hex > in; rt_sim elf in 1 && cmp 1 wanted
! rt_sim: names left out: 1
!   far
!   built for rv32ima_zba: instructions of M, A, Zba fault as Illegal here; compile with -march=rv32i

case extensions that fault
file elf \x7fELF\x01\x01\x01\0\0\0\0\0\0\0\0\0\x02\0\xf3\0\x01\0\0\0\0\0\0\x804\0\0\0\0\0\0\0\0\0\0\x004\0 \0\x01\0(\0\0\0\0\0\x01\0\0\0T\0\0\0\0\0\0\x80\0\0\0\x80\x04\0\0\0\x08\0\0\0\x07\0\0\0\x04\0\0\0o\0\0\0
file built.py
  # an ELF file with a section of attributes that names this architecture
  import struct, sys
  name, elf = sys.argv[1].encode("latin-1", "surrogateescape"), bytearray(open("elf", "rb").read())
  section = b"A" + struct.pack("<I", len(name) + 17) + b"riscv\0\1" + struct.pack("<I", len(name) + 7) + b"\5" + name + b"\0"
  elf[32:36], elf[48] = struct.pack("<I", len(elf) + len(section)), 1
  open("in", "wb").write(elf + section + struct.pack("<10I", 0, 0x70000003, 0, 0, 88, len(section), 0, 0, 0, 0))
file architectures
  rv32i2p1_m2p0_zmmul1p0
  rv32i2p1_m2p0_a2p1_f2p2_d2p2_zicsr2p0_zifencei2p0_zmmul1p0_zaamo1p0_zalrsc1p0
  rv32i2p1_f2p2_zicsr2p0_zve32x1p0_zvl32b1p0_svinval1p0_xtheadba1p0
  rv32i2p1_zmmul1p0
  rv32imac_zba_zcmp
  rv32i2m2a2p1p
$ while read -r it; do python3 built.py $it; rt_sim elf in out 2>&1; done < architectures
    built for rv32im: instructions of M fault as Illegal here; compile with -march=rv32i
    built for rv32imafd: instructions of M, A, F, D fault as Illegal here; compile with -march=rv32i
    built for rv32if_zve32x_zvl32b_svinval_xtheadba: instructions of F, Zve32x, Zvl32b, Svinval, Xtheadba fault as Illegal here; compile with -march=rv32i
    built for rv32i_zmmul: instructions of Zmmul fault as Illegal here; compile with -march=rv32i
    built for rv32imac_zba_zcmp: instructions of M, A, C, Zba, Zcmp fault as Illegal here; compile with -march=rv32i
    built for rv32imap: instructions of M, A, P fault as Illegal here; compile with -march=rv32i
# what runs, and what can't be read
$ for it in rv32i2p1 rv32i2p1_zicsr2p0_zifencei2p0 '' rv32 rv64i2p1_m2p0 rv32i2p1_M2p0 $'rv32i2p1_\e[31m' $(printf 'm%.0s' {1..600}); do
+   python3 built.py "$it"
+   rt_sim elf in out
+ done
