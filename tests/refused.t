# What the programs refuse: the first line, the lines behind it, the status; nothing is printed, and no file is made.

file source _start: addi x1,x0,-1\nx: jal x0,x\n
file a RTI1\0\0\0\x80\x08\0\0\0\0\0\0\0\x93\0\xf0\xffo\0\0\0
file b RTI1\0\0\0\x80\x04\0\0\0\0\0\0\0o\0\0\0
file one RTS1\x0c\0\0\0\x01\0\0\0\x01\0\0\0\x03\0\0\0\0\0\0\0@\0\0\0\x18\0\0\0RTI1\0\0\0\x80\x08\0\0\0\0\0\0\0\x93\0\xf0\xffo\0\0\0
file set hyper 12\ntask 1 3 0 64 a\n
file flat \x93\0\xf0\xffo\0\0\0
file names 80000004 t x\n80000000 T _start\n
file bad-names 80000000 T _start\nnonsense\n
file elf \x7fELF\x01\x01\x01\0\0\0\0\0\0\0\0\0\x02\0\xf3\0\x01\0\0\0\0\0\0\x804\0\0\0\0\0\0\0\0\0\0\x004\0 \0\x01\0(\0\0\0\0\0\x01\0\0\0T\0\0\0\0\0\0\x80\0\0\0\x80\x04\0\0\0\x08\0\0\0\x07\0\0\0\x04\0\0\0o\0\0\0
file overload RTS1\x0c\0\0\0\x02\0\0\0\x02\0\0\0\x03\0\0\0\0\0\0\0@\0\0\0\x10\0\0\0RTI1\0\0\0\x80\0\0\0\0\0\0\0\0\x02\0\0\0\x04\0\0\0\0\0\0\0@\0\0\0\x10\0\0\0RTI1\0\0\0\x80\0\0\0\0\0\0\0\0
file uneven RTS1\x0c\0\0\0\x02\0\0\0\x02\0\0\0\x03\0\0\0\0\0\0\0@\0\0\0\x10\0\0\0RTI1\0\0\0\x80\0\0\0\0\0\0\0\0\x02\0\0\0\x05\0\0\0\0\0\0\0@\0\0\0\x10\0\0\0RTI1\0\0\0\x80\0\0\0\0\0\0\0\0
file narrow-one RTS1\x0c\0\0\0\x01\0\0\0\x01\0\0\0\x03\0\0\0\0\0\0\0\x04\0\0\0\x18\0\0\0RTI1\0\0\0\x80\x08\0\0\0\0\0\0\0\x93\0\xf0\xffo\0\0\0

case a job that never ends
$ rt_sim certify b --jobs 1 --budget 3 --start 7
! rt_sim: certify: OverBudget job 0 pc 80000000 release 7 ticks 4
!   task 0: OverBudget at 80000000: jal x0,0x80000000: this job has no end within 30 ticks
!   rt_sim help OverBudget
? 1

case also of several periods
$ rt_sim certify b --jobs 1 --budget 3 --periods 4096
! rt_sim: certify: OverBudget job 0 pc 80000000 release 0 ticks 12289
!   task 0: OverBudget at 80000000: jal x0,0x80000000: this job has no end within 122880 ticks
!   rt_sim help OverBudget
? 1

case what is no ELF file
$ rt_sim elf source out
! rt_sim: elf: BadMagic
!   source: this is text, wanted an ELF file: a source? rt_sim asm source OUT
!   rt_sim help BadMagic
? 1

case an ELF file that isn't flat
$ rt_sim image elf out --symbols bad-names
! rt_sim: image: IsElf
!   this is an ELF file: rt_sim elf elf out
!   rt_sim help IsElf
? 1

case a path at which there is no file, and the first of two
$ for it in 'asm none out' 'pack none out' 'dis none' 'solo none --ticks 3' 'run none --ticks 3' 'report none --ticks 3' 'check none' 'debug none' 'gdb none' 'convert none out' 'image none out --symbols nowhere'; do
+   rt_sim $it 2>&1
+   echo $?
+ done | sort | uniq -c
       11   no such file
       11 3
       11 rt_sim: file none

case the second file that a set file names, whose first is no object; a third isn't there either
file far-set hyper 12\ntask 1 3 0 64 source\ntask 2 4 0 64 none\ntask 1 6 0 64 nowhere\n
$ rt_sim pack far-set out 2>&1 | sed "s|$PWD|HERE|"
  rt_sim: file none
    far-set:3: task 2 4 0 64 none (no such file, looked for from HERE)
? 3

case contents that are refused, each before the file of the result is opened
file no-start x: nop\n
file twice x: nop\nx: nop\n
file half-set hyper 12\ntask 1 3 0 64 none\ntask 2 4 0\n
file odd-set hyper 12\ntask 1 3 0 64 source\n
$ rt_sim asm no-start out
! rt_sim: line 0: NoEntry
!   no-start: NoEntry: no line defines _start
!   rt_sim help NoEntry
? 1
$ rt_sim asm twice out
! rt_sim: line 2: DuplicateLabel
!   twice:2:1: DuplicateLabel: x: defined in line 1
!     x: nop
!     ^
!   rt_sim help DuplicateLabel
? 1
$ rt_sim pack half-set out
! rt_sim: set file line 3
!   half-set:3:11: the line ends; wanted task BUDGET PERIOD START RAM PATH
!     task 2 4 0
!               ^
!   rt_sim help pack
? 1
$ rt_sim pack odd-set out
! rt_sim: image: BadMagic
!   odd-set:2: task 1 3 0 64 source
!   source: this is text, wanted an object: a source? rt_sim asm source OUT
!   rt_sim help BadMagic
? 1
$ rt_sim dis source
! rt_sim: image: BadMagic
!   source: this is text, wanted an object: a source? rt_sim asm source OUT
!   rt_sim help BadMagic
? 1
$ for it in 'run overload --ticks 3' 'debug overload' 'gdb overload'; do rt_sim $it 2>&1; echo $?; done | sort | uniq -c
        3   rt_sim help Overload
        3 1
        3 rt_sim: set: Overload total 14 hyper 12
$ for it in 'convert source out' 'debug source' 'gdb source' 'check source'; do rt_sim $it 2>&1; echo $?; done | sort | uniq -c
        4   rt_sim help BadMagic
        4   source: this is text, wanted a system: a source? rt_sim asm source OUT
        4 1
        4 rt_sim: image: BadMagic
$ rt_sim check uneven
! rt_sim: set: NotDivisor task 1
!   task 1: period 5, hyper 12; the least hyper of these periods is 15
!   rt_sim help NotDivisor
? 1
$ rt_sim solo a --ticks 3 --ram 3
! rt_sim: load: BadSize
!   RAM has a multiple of 4 from 4 to 1048576 bytes
!   rt_sim help BadSize
? 1

case a list of names that isn't one, and an image that would be written over
$ rt_sim image flat out --symbols bad-names
! rt_sim: symbols line 2
!   bad-names:2:1: nonsense: wanted 8 hexadecimal digits, a letter, a name, with single blanks
!     nonsense
!     ^~~~~~~~
!   rt_sim help image
? 1
$ rt_sim image flat names --symbols names
! rt_sim: file names
!   also the input
? 3

case what is read can't be written over
$ rt_sim asm source source
! rt_sim: file source
!   also the input
? 3
$ rt_sim convert one one
! rt_sim: file one
!   also the input
? 3
$ rt_sim pack set a
! rt_sim: file a
!   set:2: task 1 3 0 64 a (also the input)
? 3

case a line that doesn't print as it is, in a file of such a path
$ printf '_start:\n\tnop\t\x7f\r\n' > $'od\td'; rt_sim asm $'od\td' out
! rt_sim: line 2: BadToken
!   od\x09d:2:6: BadToken: byte 7f begins no token
!     nop \x7f
!         ^~~~
!   rt_sim help BadToken
? 1

case the faulty lines of a source, the first alone and all
file faulty _start: nop\n  frob x1\nx: j x\nli x1,012\naddi x1\n
$ rt_sim asm faulty out
! rt_sim: line 2: UnknownName
!   faulty:2:3: UnknownName: frob: no instruction or directive has this name
!     frob x1
!     ^~~~
!   rt_sim help UnknownName
? 1
$ rt_sim asm --all faulty out
! rt_sim: line 2: UnknownName
!   faulty:2:3: UnknownName: frob: no instruction or directive has this name
!     frob x1
!     ^~~~
!   faulty:4:7: BadNumber: 012: leading zero (octal? write 10 or 0xa)
!     li x1,012
!           ^~~
!   faulty:5:1: BadOperands: wanted: addi rd, rs1, imm
!     addi x1
!     ^~~~
? 1

case the lines whose operands are at fault: c is 4094 bytes behind the first branch, d 4096 behind the second, and e 7 behind c
file far-and-odd _start: beqz x1,c\nbnez x1,d\nj y\nx: a: la x1,y\n.word y,1\n.byte 1,256\ncall y # x:\naddi x1,x1,2048\n.half 1,2,65536\n.zero 4046\nc: j e\n.half 0\nd: .byte 0\ne: nop\n
$ rt_sim asm --all far-and-odd out
! rt_sim: line 2: OutOfRange
!   far-and-odd:2:9: OutOfRange: d: 4096 bytes away, wanted -4096 to 4094
!     bnez x1,d
!             ^
!   far-and-odd:3:3: UndefinedLabel: y: no line defines it
!     j y
!       ^
!   far-and-odd:4:13: UndefinedLabel: y: no line defines it
!     x: a: la x1,y
!                 ^
!   far-and-odd:5:7: UndefinedLabel: y: no line defines it
!     .word y,1
!           ^
!   far-and-odd:6:9: OutOfRange: 256, wanted -128 to 255
!     .byte 1,256
!             ^~~
!   far-and-odd:7:6: UndefinedLabel: y: no line defines it
!     call y # x:
!          ^
!   far-and-odd:8:12: OutOfRange: 2048, wanted -2048 to 2047
!     addi x1,x1,2048
!                ^~~~
!   far-and-odd:9:11: OutOfRange: 65536, wanted -32768 to 65535
!     .half 1,2,65536
!               ^~~~~
!   far-and-odd:11:6: OddTarget: e: 7 bytes away, wanted a multiple of 2
!     c: j e
!          ^
? 1

case those whose layout is, each once
file laid-out-badly _start: nop\nx: y: x: _start: j nowhere\n.zero 1048577\ny: .align 13\n
$ rt_sim asm --all laid-out-badly out
! rt_sim: line 2: DuplicateLabel
!   laid-out-badly:2:7: DuplicateLabel: x: defined in line 2
!     x: y: x: _start: j nowhere
!           ^
!   laid-out-badly:3:7: OutOfRange: 1048577, wanted 0 to 1048576
!     .zero 1048577
!           ^~~~~~~
!   laid-out-badly:4:1: DuplicateLabel: y: defined in line 2
!     y: .align 13
!     ^
? 1

case carriage returns before line feeds are none of its faults, and one at its end is
file faulty-returns frob x1\r\nnop\r\naddi x1\r\nnop\r
file empty-set # no tasks\n\r\ntask 1 3 0 64 a\n
$ rt_sim asm --all faulty-returns out
! rt_sim: line 1: UnknownName
!   faulty-returns:1:1: UnknownName: frob: no instruction or directive has this name
!     frob x1
!     ^~~~
!   faulty-returns:3:1: BadOperands: wanted: addi rd, rs1, imm
!     addi x1
!     ^~~~
!   faulty-returns:4:4: BadToken: byte 0d begins no token
!     nop\x0d
!        ^~~~
? 1
$ rt_sim pack empty-set out
! rt_sim: set file line 3
!   empty-set:3:1: task: the first line is hyper N
!     task 1 3 0 64 a
!     ^~~~
!   rt_sim help pack
? 1
$ rt_sim solo a --ticks 3 --ram 4
! rt_sim: load: ImageTooBig task 0
!   image 8 bytes, RAM 4: give the task at least 8, and its stack
!   rt_sim help ImageTooBig
? 1
$ rt_sim run narrow-one --ticks 3
! rt_sim: load: ImageTooBig task 0
!   image 8 bytes, RAM 4: give the task at least 8, and its stack
!   rt_sim help ImageTooBig
? 1

case the lines of set files
file good RTI1\0\0\0\x80\x04\0\0\0\0\0\0\0\x13\0\0\0
file odd RTI1B\0\0\x80\x04\0\0\0\0\0\0\0\x13\0\0\0
file long RTI1\0\0\0\x80\x08\0\0\0\0\0\0\0\x13\0\0\0\x13\0\0\0
file none none
file in # first\nhyper 12\n# a task\n\ntask 1 3 0 64 nowhere\n
file in1 hyper 12\ntask 1 3 0 64 none\ntask 1 3 0 64 in\n
file in2 hyper 12\ntask 1 3 0 64 good\ntask 2 4 0 64 out\n
$ rt_sim pack in out 2>&1 | sed "s|$PWD|HERE|"
  rt_sim: file nowhere
    in:5: task 1 3 0 64 nowhere (no such file, looked for from HERE)
? 3
$ rt_sim pack in1 out
! rt_sim: image: BadMagic
!   in1:2: task 1 3 0 64 none
!   none: this is text, wanted an object: a source? rt_sim asm none OUT
!   rt_sim help BadMagic
? 1
$ rt_sim pack in2 out
! rt_sim: file out
!   in2:3: task 2 4 0 64 out (also the input)
? 3

case the numbers of sets that are not admitted
file good RTI1\0\0\0\x80\x04\0\0\0\0\0\0\0\x13\0\0\0
file 0 hyper 4194305\ntask 1 3 0 64 good\n
file 1 hyper 12\ntask 0 3 0 64 good\n
file 2 hyper 12\ntask 1 3 0 64 good\ntask 5 4 0 64 good\n
file 3 hyper 12\ntask 1 5 0 64 good\n
$ for it in 0 1 2 3; do rt_sim pack $it out; rt_sim check out 2>&1; done
  rt_sim: set: BadHyper
    hyper 4194305, 1 to 4194304; the least hyper of these periods is 3
    rt_sim help BadHyper
  rt_sim: set: ZeroBudget task 0
    task 0: budget 0, 1 to its period 3
    rt_sim help ZeroBudget
  rt_sim: set: BudgetOverPeriod task 1
    task 1: budget 5, 1 to its period 4
    rt_sim help BudgetOverPeriod
  rt_sim: set: NotDivisor task 0
    task 0: period 5, hyper 12; the least hyper of these periods is 5
    rt_sim help NotDivisor
!   1:2: task 0 3 0 64 good: check refuses its budget
!   2:3: task 5 4 0 64 good: check refuses its budget
? 1

case the numbers of sets that are not loaded
file good RTI1\0\0\0\x80\x04\0\0\0\0\0\0\0\x13\0\0\0
file odd RTI1B\0\0\x80\x04\0\0\0\0\0\0\0\x13\0\0\0
file long RTI1\0\0\0\x80\x08\0\0\0\0\0\0\0\x13\0\0\0\x13\0\0\0
file 0 hyper 12\ntask 1 3 0 64 good\ntask 1 3 0 64 odd\n
file 1 hyper 12\ntask 1 3 0 64 good\ntask 1 3 0 4 long\n
$ rt_sim pack 0 out; (rt_sim run out --ticks 2; rt_sim debug out; rt_sim gdb out) 2>&1 | sort | uniq -c
        3   entry 80000042, RAM 80000000 to 8000003f: no multiple of 4; put .align 2 before _start
        3   rt_sim help BadEntry
        3 rt_sim: load: BadEntry task 1
? 1
$ rt_sim pack 1 out; (rt_sim run out --ticks 2; rt_sim debug out; rt_sim gdb out) 2>&1 | sort | uniq -c
        3   image 8 bytes, RAM 4: give the task at least 8, and its stack
        3   rt_sim help ImageTooBig
        3 rt_sim: load: ImageTooBig task 1
? 1

case sets of too many tasks
file good RTI1\0\0\0\x80\x04\0\0\0\0\0\0\0\x13\0\0\0
$ (echo hyper 12; yes task 1 12 0 64 good | head -65) > in; rt_sim pack in out; rt_sim check out
! rt_sim: set: TooMany
!   65 tasks, at most 64
!   rt_sim help TooMany
? 1
$ (echo hyper 12; yes task 1 12 0 64 good | head -255; echo task 1 12) > in; rt_sim pack in out
! rt_sim: set file line 257
!   in:257:10: the line ends; wanted task BUDGET PERIOD START RAM PATH
!     task 1 12
!              ^
!   rt_sim help pack
? 1
$ (echo hyper 12; yes task 1 3 0 64 good | head -257) > in; rt_sim pack in out
! rt_sim: set file line 258
!   in:258:1: task: the 257th task, at most 256
!     task 1 3 0 64 good
!     ^~~~
!   rt_sim help pack
? 1

case lines of large numbers
file good RTI1\0\0\0\x80\x04\0\0\0\0\0\0\0\x13\0\0\0
$ (yes '' | head -65540; echo frob) > in; rt_sim asm in out
! rt_sim: line 65541: UnknownName
!   in:65541:1: UnknownName: frob: no instruction or directive has this name
!     frob
!     ^~~~
!   rt_sim help UnknownName
? 1
$ rt_sim image good out --symbols in
! rt_sim: symbols line 65541
!   in:65541:1: frob: wanted 8 hexadecimal digits, a letter, a name, with single blanks
!     frob
!     ^~~~
!   rt_sim help image
? 1

case bytes that are not printed are escaped
$ printf '_start: nop\nfrob \x9b31m\n' > in; rt_sim asm in out
! rt_sim: line 2: NotAscii
!   in:2:6: NotAscii: byte 9b
!     frob \x9b31m
!          ^~~~
!   rt_sim help NotAscii
? 1
$ rt_sim dis $'no\x7ffile'
! rt_sim: file no\x7ffile
!   no such file
? 3

case a hundred bytes of a line are shown
$ for it in 95 96; do echo frob $(printf 'x%.0s' $(seq $it)) > in; rt_sim asm in out 2>&1 | sed -n 3p; done
      frob xxxxxxxxxxxxxxxxxxxxxxxxxxxxxxxxxxxxxxxxxxxxxxxxxxxxxxxxxxxxxxxxxxxxxxxxxxxxxxxxxxxxxxxxxxxxxxx
      frob xxxxxxxxxxxxxxxxxxxxxxxxxxxxxxxxxxxxxxxxxxxxxxxxxxxxxxxxxxxxxxxxxxxxxxxxxxxxxxxxxxxxxxxxxxxxxxx ..
? 1

case an object of too many bytes of ELF
$ truncate -s 67108865 torn; rt_sim elf torn out
! rt_sim: elf: TooLarge
!   torn: over 67108864 bytes: objcopy --strip-debug
!   rt_sim help TooLarge
? 1

case a hundred faulty lines are shown, and how many more there are
$ (yes 'frob' | head -150) > in; rt_sim asm --all in out 2>&1 | sed -n '1,4p'; rt_sim asm --all in out 2>&1 | tail -4
  rt_sim: line 1: UnknownName
    in:1:1: UnknownName: frob: no instruction or directive has this name
      frob
      ^~~~
    in:100:1: UnknownName: frob: no instruction or directive has this name
      frob
      ^~~~
    .. and 50 more
? 1
$ (echo '_start: nop'; yes 'j y' | head -103) > in; rt_sim asm --all in out 2>&1 | sed -n '1,4p'; rt_sim asm --all in out 2>&1 | tail -4
  rt_sim: line 2: UndefinedLabel
    in:2:3: UndefinedLabel: y: no line defines it
      j y
        ^
    in:101:3: UndefinedLabel: y: no line defines it
      j y
        ^
    .. and 3 more
? 1
$ (echo '_start: nop'; yes 'j y' | head -1001) > in; rt_sim asm --all in out 2>&1 | sed -n '1,4p'; rt_sim asm --all in out 2>&1 | tail -4
  rt_sim: line 2: UndefinedLabel
    in:2:3: UndefinedLabel: y: no line defines it
      j y
        ^
    in:101:3: UndefinedLabel: y: no line defines it
      j y
        ^
    .. and 901 more
? 1
$ (echo '_start: nop'; yes 'j y' | head -100) > in; rt_sim asm --all in out 2>&1 | sed -n '1,4p'; rt_sim asm --all in out 2>&1 | tail -3
  rt_sim: line 2: UndefinedLabel
    in:2:3: UndefinedLabel: y: no line defines it
      j y
        ^
    in:101:3: UndefinedLabel: y: no line defines it
      j y
        ^
? 1

case faults on both sides of a line that is longer than what is read at once
$ (echo frob; head -c 70000 /dev/zero | tr '\0' x; echo; echo li x1,012) > in; rt_sim asm --all in out 2>&1 | cut -c1-78
  rt_sim: line 1: UnknownName
    in:1:1: UnknownName: frob: no instruction or directive has this name
      frob
      ^~~~
    in:2: LineTooLong: 70000 bytes, at most 512
      xxxxxxxxxxxxxxxxxxxxxxxxxxxxxxxxxxxxxxxxxxxxxxxxxxxxxxxxxxxxxxxxxxxxxxxxxx
    in:3:7: BadNumber: 012: leading zero (octal? write 10 or 0xa)
      li x1,012
            ^~~
? 1

case runs whose failures are looked for
file narrow RTI1\0\0\0\x80\x08\0\0\0\0\0\0\0\xb7\x02\0\x80#\xa8\x12\0
file shares RTS1\x0c\0\0\0\x03\0\0\0\x01\0\0\0\x02\0\0\0\0\0\0\0@\0\0\0\x10\0\0\0RTI1\0\0\0\x80\0\0\0\0\0\0\0\0\x01\0\0\0\x03\0\0\0\0\0\0\0@\0\0\0\x10\0\0\0RTI1\0\0\0\x80\0\0\0\0\0\0\0\0\x01\0\0\0\x06\0\0\0\0\0\0\0@\0\0\0\x10\0\0\0RTI1\0\0\0\x80\0\0\0\0\0\0\0\0
file busy RTS1\x0c\0\0\0\x02\0\0\0\x01\0\0\0\x03\0\0\0\0\0\0\0@\0\0\0\x14\0\0\0RTI1\0\0\0\x80\x04\0\0\0\0\0\0\0o\0\0\0\x02\0\0\0\x04\0\0\0\0\0\0\0@\0\0\0\x14\0\0\0RTI1\0\0\0\x80\x04\0\0\0\0\0\0\0o\0\0\0
$ rt_sim solo narrow --ticks 2 --ram 16 --quiet --fail-on fault
  after 2
  task 0 faulted StoreAccess pc 80000004
  regs x5=80000000
  out 0
! rt_sim: failed: fault task 0
!   task0: at tick 1, at 80000004
!   task 0: StoreAccess at 80000004: sw x1,16(x5): 80000010, RAM 80000000 to 8000000f
? 4
# each of three tasks faults at its first tick; what comes first in the list is reported first
$ rt_sim run shares --ticks 3 --quiet --fail-on soft,fault
  after 3
  task 0 faulted Illegal c 1 d 4 pc 80000000
  regs
  out 0
  task 1 faulted Illegal c 1 d 6 pc 80000000
  regs
  out 0
  task 2 faulted Illegal c 1 d 12 pc 80000000
  regs
  out 0
! rt_sim: failed: fault task 0
!   task0: at tick 0, at 80000000
!   fault task 1
!   task1: at tick 1, at 80000000
!   fault task 2
!   task2: at tick 2, at 80000000
!   task 0: Illegal at 80000000: 00000000, no instruction: past the program's end?
!   task 1: Illegal at 80000000: 00000000, no instruction: past the program's end?
!   task 2: Illegal at 80000000: 00000000, no instruction: past the program's end?
? 4
# the open jobs of periods 3 and 4 are over the period from tick 3 and from tick 4 on
$ rt_sim jobs busy --ticks 4 --fail-on refused,over
  task,job,release,finish,response,ticks,fresh,calm,hard,late
! rt_sim: failed: over task 0
!   task0: job 0, released at 0, has no end after 4 ticks
? 4
$ rt_sim jobs busy --ticks 3 --fail-on fault,over,soft,refused
  task,job,release,finish,response,ticks,fresh,calm,hard,late

case no file is made of what is refused
$ for it in 'asm none' 'asm flat' 'pack names' 'elf source' 'image elf' 'convert source'; do rt_sim $it out 2> told; ls out 2>&1; done | sort -u
  ls: cannot access 'out': No such file or directory
? 2
