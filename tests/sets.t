# Set files: which texts are none, and what is made of the others, by hand.

file a RTI1\0\0\0\x80\x04\0\0\0\0\0\0\0o\0\0\0
file b RTI1\x04\0\0\x80\x08\0\0\0\0\0\0\0\x93\0\xf0\xffo\0\0\0

case texts that are no set file, each with its first faulty line
# Each row has the number of the line, and the text. Where another line is reported, the row is printed.
file rows
  1|
  2|\n
  2|# nothing
  4|# nothing\n\r\n\n
  1|task 1 3 0 64 a\nhyper 12\n
  2|hyper 12\nhyper 12\n
  4|hyper 12\n\n# twice\nhyper 13\n
  1|hyper\n
  1|hyper \n
  1|hyper  12\n
  1| hyper 12\n
  1|hyper 12 \n
  1|hyper 12 13\n
  1|hyper 012\n
  1|hyper 00\n
  1|hyper +12\n
  1|hyper -0\n
  1|hyper 0x10\n
  1|hyper 4294967296\n
  1|hyper 18446744073709551628\n
  1|hyper 12\r\r\n
  1|hyper 12\r
  1|Hyper 12\n
  1|hyper\t12\n
  1|   \nhyper 12\n
  2|hyper 12\n \n
  2|hyper 12\n # comment\n
  3|hyper 12\ntask 1 3 0 64 a\ntask 1 3 0 64\n
  2|hyper 12\ntask 1 3 0 64 \n
  2|hyper 12\ntask 1 3 0  64 a\n
  2|hyper 12\ntask  1 3 0 64 a\n
  2|hyper 12\ntask 01 3 0 64 a\n
  2|hyper 12\ntask 1 03 0 64 a\n
  2|hyper 12\ntask 1 3 00 64 a\n
  2|hyper 12\ntask 1 3 0 064 a\n
  2|hyper 12\ntask 1 4294967296 0 64 a\n
  2|hyper 12\ntask 1 3 0 3 a\n
  2|hyper 12\ntask 1 3 0 0 a\n
  2|hyper 12\ntask 1 3 0 66 a\n
  2|hyper 12\ntask 1 3 0 1048580 a\n
  2|hyper 12\ntask 1 3 0 64 \xff\n
  2|hyper 12\ntask 1 3 0 64 a\xc3\n
  2|hyper 12\ntasks 1 3 0 64 a\n
  2|hyper 12\ntask-split\n
  2|hyper 12\ntask-split \n
  2|hyper 12\ntask-split  1 3 0 64 a\n
  2|hyper 12\ntask -split 1 3 0 64 a\n
  2|hyper 12\ntask split 1 3 0 64 a\n
  2|hyper 12\ntask-splits 1 3 0 64 a\n
  2|hyper 12\ntask- 1 3 0 64 a\n
  2|hyper 12\nTask-split 1 3 0 64 a\n
  2|hyper 12\ntask-split 1 3 0 3 a\n
  2|hyper 12\ntask-split 1 3 0 64 \n
  1|task-split 1 3 0 64 a\nhyper 12\n
$ while IFS= read -r row; do
+   printf "${row#*|}" > in
+   said=$(rt_sim pack in out 2>&1 | sed -n 1p)
+   [ "$said" = "rt_sim: set file line ${row%%|*}" ] || echo "$row: $said"
+ done < rows

case lines that say something
file set # a set\r\n\n#\xff\r\nhyper 0\r\n\ntask 1 4294967295 0 4 a\r\n#task\ntask 0 0 7 1048576  b c/\xc3\xa4 
$ mkdir ' b c'; cp b ' b c/ä '; rt_sim pack set out; rt_sim show out
  # version One
  hyper 0
  task 1 4294967295 0 4 task0.rti
  #   image 4 bytes, entry 80000000 -, 0 symbols, weight 0
  task 0 0 7 1048576 task1.rti
  #   image 8 bytes, entry 80000004 -, 0 symbols, weight -
!   set:8: task 0 0 7 1048576  b c/\xc3\xa4: check refuses its budget
$ printf 'hyper 4294967295' > set; rt_sim pack set out; rt_sim show out
  # version One
  hyper 4294967295

case tasks in their order, and a split one among others
$ printf 'hyper 99\ntask 1 3 0 64 a\ntask 1 3 7 4 b\n' > set; rt_sim pack set out; rt_sim show out
  # version One
  hyper 99
  task 1 3 0 64 task0.rti
  #   image 4 bytes, entry 80000000 -, 0 symbols, weight 33
  task 1 3 7 4 task1.rti
  #   image 8 bytes, entry 80000004 -, 0 symbols, weight 33
$ printf 'hyper 12\ntask 1 3 0 64 a\ntask-split 1 3 0 64 a\ntask 1 3 0 64 a\n' > set; rt_sim pack set out; wc -c < out; rt_sim show out
  144
  # version Two
  hyper 12
  task 1 3 0 64 task0.rti
  #   image 4 bytes, entry 80000000 -, 0 symbols, weight 4
  task-split 1 3 0 64 task1.rti
  #   image 4 bytes, entry 80000000 -, 0 symbols, weight 4
  task 1 3 0 64 task2.rti
  #   image 4 bytes, entry 80000000 -, 0 symbols, weight 4

case at most 256 lines of tasks
$ (echo hyper 12; yes task 1 3 0 64 a | head -256) > set; rt_sim pack set out; rt_sim show out | grep -c ^task
  256
$ (echo '#'; echo task 1 3 0 64 a) >> set; rt_sim pack set out 2>&1 | sed -n 1p
  rt_sim: set file line 259
? 1

case a set file in place of a system file is the system that pack makes of it
file pair.set
  # two tasks that never sleep

  hyper 12
  task 1 3 0 64 a
  task-split 1 4 2 64 b
$ for words in "check SYS" "run SYS --ticks 9" "report SYS --ticks 9 --wide" "jobs SYS --ticks 9 --open" "profile SYS --ticks 9" "chart SYS --ticks 9" "vcd SYS --ticks 9" "trace SYS --ticks 9" "show SYS"; do
+   rt_sim ${words/SYS/pair.set} > one 2> one.said; echo $? >> one; rt_sim ${words/SYS/pair.rts} > two 2> two.said; echo $? >> two; cmp one two; cmp one.said two.said
+ done
$ echo step 3 | rt_sim debug pair.set > one; echo step 3 | rt_sim debug pair.rts > two; cmp one two
$ rt_sim convert pair.set one.rts; rt_sim convert pair.rts two.rts; cmp one.rts two.rts
$ rt_sim report pair.set --ticks 9 --fail-on over 2>&1 | sed -n '/^rt_sim/p'
  rt_sim: failed: over task 0
? 4

case a set file in place of a system file that has no system
$ printf 'hyper 12\ntask 1 3 0 64\n' > bad.set; rt_sim run bad.set --ticks 1 2>&1 | sed -n 1p
  rt_sim: set file line 2
? 1
$ printf '# here\n\nhyper 12\ntask 1 3 0 64 nowhere\n' > bad.set; rt_sim check bad.set 2>&1 | sed -n 1p
  rt_sim: file nowhere
? 3
$ printf 'hyper 12\ntask 1 3 0 64 a\ntask 1 3 0 64 bad.set\n' > bad.set; rt_sim show bad.set 2>&1 | sed -n 1p
  rt_sim: image: BadMagic
? 1
$ printf 'hyper 12\ntask 3 3 0 64 a\ntask 1 3 0 64 a\n' > full.set; rt_sim report full.set --ticks 3 2>&1 | sed -n 1p
  rt_sim: set: Overload total 16 hyper 12
? 1
$ rt_sim convert full.set a 2>&1 | sed -n 1p; rt_sim convert full.set full.set 2>&1 | sed -n 1p
  rt_sim: file a
  rt_sim: file full.set
? 3

case what is no set file is refused as a system file is
$ for text in 'hyper\t12\n' 'hyper' 'hyper12\n' ' hyper 12\n' '#\n' 'task 1 3 0 64 a\nhyper 12\n' ''; do
+   printf "$text" > in; rt_sim check in 2>&1 | sed -n 1p
+ done
  rt_sim: image: BadMagic
  rt_sim: image: BadMagic
  rt_sim: image: BadMagic
  rt_sim: image: BadMagic
  rt_sim: image: BadMagic
  rt_sim: image: BadMagic
  rt_sim: image: Truncated
? 1

case a long comment before a set, and lines behind one that is faulty
$ (yes '# not yet' | head -9000; echo hyper 12; echo task 1 3 0 64 a) > long.set; rt_sim check long.set
  admitted 4 of 12
$ (echo hyper 12; echo; echo hyper 13; yes task 1 3 0 64 a | head -9000) > long.set; rt_sim check long.set 2>&1 | sed -n 1p
  rt_sim: set file line 3
? 1

case budgets that check refuses
$ printf 'hyper 12\n# more than its period\ntask 4 3 0 64 a\ntask 0 3 0 64 a\n' > set; rt_sim pack set out; rt_sim check out
!   set:3: task 4 3 0 64 a: check refuses its budget
! rt_sim: set: ZeroBudget task 1
!   task 1: budget 0, 1 to its period 3
!   rt_sim help ZeroBudget
? 1
$ printf 'hyper 12\ntask 3 3 0 64 a\n\ntask 4 3 0 64 b\n' > set; rt_sim pack set out
!   set:4: task 4 3 0 64 b: check refuses its budget

case ELF files of a set, and in place of objects, are the objects that elf makes of them
$ cp $EXAMPLES/c/*.elf $EXAMPLES/c/plant.set .; mv plant.set elf.set; sed 's/elf$/rti/' elf.set > plant.set; for it in controller level status alive pump recorder; do rt_sim elf $it.elf $it.rti; done; rt_sim pack plant.set plant.rts
$ rt_sim pack elf.set elf.rts && cmp elf.rts plant.rts
$ for words in "check SYS" "run SYS --ticks 9000 --quiet" "report SYS --ticks 9000 --wide" "jobs SYS --ticks 9000 --wide" "profile SYS --ticks 9000" "trace SYS --ticks 900" "show SYS"; do
+   rt_sim ${words/SYS/elf.set} > one 2> one.said; echo $? >> one; rt_sim ${words/SYS/plant.rts} > two 2> two.said; echo $? >> two; cmp one two; cmp one.said two.said
+ done
$ for words in "dis OBJ" "show OBJ" "solo OBJ --ticks 900" "solo OBJ --ticks 9000 --out" "certify OBJ --jobs 9 --budget 400 --period 1000 --ram 65536"; do
+   rt_sim ${words/OBJ/controller.elf} > one 2> one.said; echo $? >> one; rt_sim ${words/OBJ/controller.rti} > two 2> two.said; echo $? >> two; cmp one two; cmp one.said two.said
+ done
$ echo step 3 | rt_sim debug elf.set > one; echo step 3 | rt_sim debug plant.rts > two; cmp one two; rt_sim convert elf.set one.rts; rt_sim convert plant.rts two.rts; cmp one.rts two.rts
# a symbol of recorder.elf has its name, and isn't at the entry
$ rt_sim report elf.set --ticks 0 --csv | sed 's/.*,//' | paste -sd' '; for it in controller recorder; do rt_sim show $it.elf | sed -n 's/.*entry/entry/p' | cut -d, -f1; done
  name controller level status alive pump
  entry 80000000 controller
  entry 80000000 -
# what is made is none of the files that are read
$ rt_sim pack elf.set controller.elf 2>&1 | sed -n 1,2p
  rt_sim: file controller.elf
    elf.set:2: task 400 1000 0 65536 controller.elf (also the input)
? 3

case names that are left out of all objects are counted
# A program of two words that counts in x1. Of its names one is local to two files, and one stands far behind its image.
file hex
  7f454c4601010100000000000000000002 00f300010000000000008034000000 0f010000000000003400200002002800 0400000001000000
  740000000000008000000080 08000000080000000700000004000000 010000007c00000010000080080000800400000008000000 0700000004000000
  93801000 6f000000 2a000000 00000000 00000000 00000000 00000000
  01000000 00000080 04000000 10000100 08000000 10000080 04000000 11000100 0a000000 10000080 04000000 01000100
  0c000000 00000080 04000000 00000100 17000000 00000180 04000000 1000f1ff 1b000000 18000080 04000000 1000f1ff
  00 5f737461727400 7600 7600 24787276333269327031 00 746f7000 656e6400
  00000000 00000000 00000000 00000000 00000000 00000000 00000000 00000000 00000000 00000000
  00000000 01000000 07000000 00000080 74000000 0c000000 00000000 00000000 04000000 00000000
  00000000 02000000 00000000 00000000 80000000 70000000 03000000 01000000 04000000 10000000
  00000000 03000000 00000000 00000000 f0000000 1f000000 00000000 00000000 01000000 00000000
$ tr -d ' \n' < hex | python3 -c 'import sys; sys.stdout.buffer.write(bytes.fromhex(sys.stdin.read()))' > two.elf; wc -c < two.elf; printf 'hyper 12\ntask 1 3 0 64 two.elf\ntask 1 3 0 64 a\ntask 1 3 0 64 two.elf\n' > two.set
  431
$ for words in "pack two.set two.rts" "check two.set" "run two.set --ticks 9 --quiet" "convert two.set one.rts" "show two.elf" "solo two.elf --ticks 9 --quiet"; do rt_sim $words 2>&1 > out | sed -n 1p; done; rt_sim debug two.set < /dev/null
  rt_sim: names left out: 4
  rt_sim: names left out: 4
  rt_sim: names left out: 4
  rt_sim: names left out: 4
  rt_sim: names left out: 2
  rt_sim: names left out: 2
! rt_sim: names left out: 4
$ rt_sim show one.rts | grep image; rt_sim show two.elf 2> /dev/null
  #   image 24 bytes, entry 80000000 two, 4 symbols, weight 4
  #   image 4 bytes, entry 80000000 -, 0 symbols, weight 4
  #   image 24 bytes, entry 80000000 two, 4 symbols, weight 4
  # object
  #   image 24 bytes, entry 80000000 two, 4 symbols
  80000000 _start
  80000000 two
  80000010 v
  80000018 end
# nothing is counted where the program fails
$ rt_sim run two.set --ticks 9 --fail-on refused,over 2>&1 > out | sed -n 1p; rt_sim check two.set > /dev/full
  rt_sim: failed: over task 0
! rt_sim: device after 0 bytes
!   standard output: no room on the device
? 3

case the first faulty file of a set is told, when all are read
file elf \x7fELF\x02\x01\x01\0\0\0\0\0\0\0\0\0\x02\0\xf3\0\x01\0\0\0\0\0\0\x804\0\0\0\0\0\0\0\0\0\0\x004\0 \0\x01\0(\0\0\0\0\0\x01\0\0\0T\0\0\0\0\0\0\x80\0\0\0\x80\x04\0\0\0\x08\0\0\0\x07\0\0\0\x04\0\0\0o\0\0\0
file rows
  elf: Not32Bit|a elf text
  image: BadMagic|a text elf
  elf: Not32Bit|a b elf
  file none|elf text none
  elf: Truncated|cut elf
$ echo no object > text; head -c 51 elf > cut
+ while IFS='|' read -r wanted names; do
+   (echo hyper 12; for it in $names; do echo task 1 12 0 64 $it; done) > set
+   said=$(rt_sim check set 2>&1 | sed -n 1p)
+   [ "$said" = "rt_sim: $wanted" ] || echo "$names: $said"
+ done < rows
$ printf '# one\nhyper 12\ntask 1 12 0 64 elf\n' > set; rt_sim report set --ticks 3
! rt_sim: elf: Not32Bit
!   set:3: task 1 12 0 64 elf
!   elf: compile and link all parts, libgcc too, with -march=rv32i -mabi=ilp32 for RISC-V
!   rt_sim help Not32Bit
? 1
$ rt_sim certify elf --jobs 1 --budget 1 --period 2
! rt_sim: elf: Not32Bit
!   elf: compile and link all parts, libgcc too, with -march=rv32i -mabi=ilp32 for RISC-V
!   rt_sim help Not32Bit
? 1
# no more of it is read than an ELF file may have
$ truncate -s 67108864 elf; rt_sim dis elf 2>&1 | sed -n 1p; truncate -s 67108865 elf; rt_sim dis elf 2>&1 | sed -n 1p
  rt_sim: elf: Not32Bit
  rt_sim: elf: TooLarge
? 1
