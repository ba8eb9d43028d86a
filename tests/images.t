# Objects of flat images with lists of names, worked out by hand, and names for their entries.

# li a0, 42; ecall
file flat \x13\x05\xa0\x02s\0\0\0

case the names that an object may have
file names 80000004 t end\r\n80000008 D _end\n\n80000009 B beyond\n7FFFFFFC A below\n80000004 t main-1\n80000000 T end\n80000000 T Start
file wanted RTI1\x04\0\0\x80\x08\0\0\0\x03\0\0\0\x13\x05\xa0\x02s\0\0\0\x05\0Start\0\0\0\x80\x04\0_end\x08\0\0\x80\x03\0end\x04\0\0\x80
$ rt_sim image flat out --entry 0x80000004 --symbols names; cmp out wanted
! rt_sim: names left out: 4
!   beyond below main-1 end

case names that nm does not show are neither kept nor counted
file names 80000000 t $xrv32i2p1\n80000000 t $x\n80000000 d $d\n80000004 d $dx\n80000000 t .L\n90000000 t .L0 \n80000000 t $y\n80000000 t .l\n
file wanted RTI1\0\0\0\x80\x08\0\0\0\x02\0\0\0\x13\x05\xa0\x02s\0\0\0\x02\0$y\0\0\0\x80\x02\0.l\0\0\0\x80
$ rt_sim image flat out --symbols names; cmp out wanted

case an image without names
file wanted RTI1\x04\0\0\x80\x08\0\0\0\0\0\0\0\x13\x05\xa0\x02s\0\0\0
$ for it in '' '\n\r\n'; do
+   printf "$it" > names
+   rt_sim image flat 1 --entry 0x80000004 --symbols names
+   cmp 1 wanted
+ done
+ rt_sim image flat 1 --entry 0x80000004
+ cmp 1 wanted

case an ELF file is refused before anything else is looked at
$ echo x > names
+ for it in 0 4 52 1048628; do
+   (printf '\x7fELF'; head -c $it /dev/zero) > in
+   rt_sim image in out --symbols names 2>&1 | sed -n 1p
+ done
  rt_sim: image: IsElf
  rt_sim: image: IsElf
  rt_sim: image: IsElf
  rt_sim: image: IsElf
? 1
$ for it in '\x7fELE' '\x7fELf' '\x7eELF' '\x7fEL'; do printf $it > in; rt_sim image in out --symbols names 2>&1 | sed -n 1p; done
  rt_sim: symbols line 1
  rt_sim: symbols line 1
  rt_sim: symbols line 1
  rt_sim: symbols line 1
? 1

case entries and lists
# Each row has the size of an image of zeros, an entry, a list of names, and what is refused, if it is. Of two names that are kept the
# first counts. Where it differs, the row is printed.
file rows
  8|0x80000000||
  8|0x80000004||
  8|0x80000001||rt_sim: image: BadEntry
  8|0x80000002||rt_sim: image: BadEntry
  8|0x80000008||rt_sim: image: BadEntry
  11|0x80000008||rt_sim: image: BadEntry
  12|0x80000008||
  8|0x7ffffffc||rt_sim: image: BadEntry
  8|0x00000000||rt_sim: image: BadEntry
  8|0xfffffffc||rt_sim: image: BadEntry
  0|0x80000000||rt_sim: image: BadEntry
  3|0x80000000||rt_sim: image: BadEntry
  4|0x80000000||
  8|go|80000004 T go\n80000002 t go|
  8|go|80000002 t go\n80000004 T go|rt_sim: image: BadEntry
  8|go|7ffffffe t go\n80000004 T go|
  8|go|80000008 t go\n80000000 T gone|rt_sim: image: BadEntry
  8|go||rt_sim: image: BadEntry
  8|Go|80000000 T go|rt_sim: image: BadEntry
  8|$x|80000000 t $x\n80000000 T go|rt_sim: image: BadEntry
  8|0x80000002|80000009 T a|rt_sim: image: Misplaced
  8|0x80000000|80000009 T a\n7fffffff T b\n|rt_sim: image: Misplaced
  8|0x80000000|80000009 T a\n80000008 T end\n|
  8|0x80000000|80000000 T a\n08000000 T b\n|
  8|0x80000000|08000000 T a\n80000004 t b-1\n|
  8|0x80000000|08000000 T a\n80000004 t $x\n|rt_sim: image: Misplaced
  8|0x80000000|08000000 t $x\n|
  8|0x80000000|00000000 T main|rt_sim: image: Misplaced
  8|0x80000000|08000000 T a\nx|rt_sim: symbols line 2
  8|0x80000000|\r\n\r\n|
  8|0x80000000|8000000 T short|rt_sim: symbols line 1
  8|0x80000000|800000000 T long|rt_sim: symbols line 1
  8|0x80000000|8000000g T digit|rt_sim: symbols line 1
  8|0x80000000|80000000  T spaces|rt_sim: symbols line 1
  8|0x80000000|80000000 TT letters|rt_sim: symbols line 1
  8|0x80000000|80000000 T |rt_sim: symbols line 1
  8|0x80000000|80000000 T|rt_sim: symbols line 1
  8|0x80000000|         U undefined|rt_sim: symbols line 1
  8|0x80000000| |rt_sim: symbols line 1
  8|0x80000000|80000000\tT\ttabs|rt_sim: symbols line 1
  8|0x80000000|80000000 T a\n\n80000000 T a\nx\ny\n|rt_sim: symbols line 4
  8|0x80000000|80000000 T\n80000000 $x\n|rt_sim: symbols line 1
  1048576|0x80000000|80100000 B end|
  1048577|0x80000000|x|rt_sim: image: TooLarge
$ while IFS='|' read -r size entry names wanted; do
+   head -c $size /dev/zero > in
+   printf "$names" > names
+   said=$(rt_sim image in out --symbols names --entry "$entry" 2>&1) && said=
+   [ "${said%%$'\n'*}" = "$wanted" ] || echo "$size $entry $names: $said"
+ done < rows

case a thousand names, and one too many
$ for it in $(seq 0 999); do
+   printf '80000000 T n%05d\n' $((it * 389 % 1000))
+ done > names
+ rt_sim image flat out --symbols names
+ wc -c < out
+ head -c 36 out | tail -c 12 | cat -v
+ echo
+ tail -c 12 out | cat -v
+ echo
  12024
  ^F^@n00000^@^@^@M-^@
  ^F^@n00999^@^@^@M-^@
$ seq -f '80000000 T n%05.0f' 0 65535 > names
+ rt_sim image flat out --symbols names
+ printf '80000000 T n00007\n80000000 T more\n' >> names
+ rt_sim image flat out --symbols names 2>&1 | sed -n 1p
  rt_sim: symbols line 65538
? 1

case names of entries
# `pid` comes between the others by its bytes. A name that the entry has changes nothing.
file in \x13\0\0\0
file names 80000000 T _start\n80000004 T work\n
file plain RTI1\0\0\0\x80\x04\0\0\0\x02\0\0\0\x13\0\0\0\x06\0_start\0\0\0\x80\x04\0work\x04\0\0\x80
file named RTI1\0\0\0\x80\x04\0\0\0\x03\0\0\0\x13\0\0\0\x06\0_start\0\0\0\x80\x03\0pid\0\0\0\x80\x04\0work\x04\0\0\x80
$ rt_sim image in out --symbols names --name pid && cmp out named; rt_sim image in out --symbols names --name _start && cmp out plain
$ echo 80000000 T pid >> names; rt_sim image in out --symbols names --name pid && cmp out named
$ rt_sim image in out --symbols names --name work
! rt_sim: name work stands at 80000004
!   it isn't the entry: take a name that no symbol has
? 1
# a label may be at the end
$ printf 'nop\n_start:\n' > end; rt_sim asm end out --name pid; rt_sim show out | tail -1
  80000004 pid
$ for it in pid '_.$9' a23456789a23456789a23456789a23456789a23456789a23456789a234567891; do
+   rt_sim image in out --name $it
+   rt_sim show out | tail -1
+ done
  80000000 pid
  80000000 _.$9
  80000000 a23456789a23456789a23456789a23456789a23456789a23456789a234567891
$ rt_sim image in out --name '' 2>&1 | sed -n 1p
  rt_sim: the command line cannot be read
? 2

case names of entries by the paths of objects
# Each row has a path, a list of names, and the name of the entry: the stem of the path where that may be one, no other symbol has it, and
# those at the entry begin with _ or a dot. The entry is the first of two words.
file in \x13\0\0\0\x13\0\0\0
file rows
  motor||motor
  motor.rti||motor
  motor.elf.rti||motor
  a.b/motor.rti||motor
  a.b/../a.b/motor.||motor
  Motor_2$.x||Motor_2$
  m||m
  a.b/.motor||-
  2motor||-
  _motor||-
  $motor||-
  mo-tor||-
  mo tor||-
  m\xc3\xb6tor||-
  motor|80000000 T _start|motor
  motor|80000000 T .text|motor
  motor|80000000 T go|go
  motor|80000000 T longer\n80000000 T _start|longer
  motor|80000000 T $y|$y
  motor|80000004 T go|motor
  motor|80000004 T motor|-
  motor|80000004 T motor\n80000000 T go|go
  a23456789a23456789a23456789a23456789a23456789a23456789a234567891.rti||a23456789a23456789a23456789a23456789a23456789a23456789a234567891
  a23456789a23456789a23456789a23456789a23456789a23456789a2345678912.rti||-
$ mkdir a.b
+ while IFS='|' read -r path names wanted; do
+   path=$(printf "$path"); printf "$names" > names
+   rt_sim image in "$path" --symbols names; said=$(rt_sim show "$path" | sed -n 's/.* entry 80000000 \(.*\), .*/\1/p')
+   [ "$said" = "$wanted" ] || echo "$path $names: $said"
+ done < rows
# of the standard output there is none, --name stands before it, and asm takes none
$ rt_sim image in - | wc -c; rt_sim image in motor.rti --name pid; rt_sim show motor.rti | tail -1; printf '_start: nop\n' > motor.s; rt_sim asm motor.s motor.rti; rt_sim show motor.rti | tail -1
  24
  80000000 pid
  80000000 _start
