# Bytes of other files in the image of an object: --data of image and elf.

# a jump to itself, a table of 8 bytes, and the end
file flat o\0\0\0\0\0\0\0\0\0\0\0
file names
  80000000 T _start
  80000004 D table
  8000000c B end
file four abcd
file two XY

case bytes stand at a symbol of a flat image
file wanted RTI1\0\0\0\x80\x0c\0\0\0\x03\0\0\0o\0\0\0abcd\0\0\0\0\x06\0_start\0\0\0\x80\x03\0end\x0c\0\0\x80\x05\0table\x04\0\0\x80
file over RTI1\0\0\0\x80\x0c\0\0\0\x03\0\0\0o\0\0\0XYcd\0\0\0\0\x06\0_start\0\0\0\x80\x03\0end\x0c\0\0\x80\x05\0table\x04\0\0\x80
file longer RTI1\0\0\0\x80\x10\0\0\0\x03\0\0\0o\0\0\0\0\0\0\0\0\0\0\0abcd\x06\0_start\0\0\0\x80\x03\0end\x0c\0\0\x80\x05\0table\x04\0\0\x80
file begun RTI1\0\0\0\x80\x0c\0\0\0\x03\0\0\0abcd\0\0\0\0\0\0\0\0\x06\0_start\0\0\0\x80\x03\0end\x0c\0\0\x80\x05\0table\x04\0\0\x80
$ rt_sim image flat 1 --symbols names --data table=four && cmp 1 wanted
# one after the other
$ rt_sim image flat 1 --symbols names --data table=four --data table=two && cmp 1 over
# the image grows
$ rt_sim image flat 1 --symbols names --data end=four && cmp 1 longer
$ rt_sim image flat 1 --symbols names --data _start=four && cmp 1 begun
# of no bytes nothing changes; - is the standard input
$ : > none; rt_sim image flat 1 --symbols names --data table=none && rt_sim image flat 2 --symbols names && cmp 1 2
$ rt_sim image flat 1 --symbols names --data table=- < four && cmp 1 wanted
# the entry gets its name as without
$ rt_sim image flat pid.rti --symbols names --data table=four; rt_sim show pid.rti
  # object
  #   image 12 bytes, entry 80000000 pid, 4 symbols
  80000000 _start
  80000000 pid
  80000004 table
  8000000c end

case up to the end of RAM
$ head -c 1048572 /dev/zero > all; head -c 1048573 /dev/zero > more; head -c 3000000 /dev/zero > most
$ rt_sim image flat 1 --symbols names --data table=all; rt_sim show 1 | sed -n 2p
  #   image 1048576 bytes, entry 80000000 -, 3 symbols
$ rt_sim image flat 2 --symbols names --data table=more
! rt_sim: image: DataTooLarge
!   --data table: the file has 1048573 bytes, and there is room for 1048572: make it shorter, or the array longer
!   rt_sim help DataTooLarge
? 1
$ rt_sim image flat 2 --symbols names --data end=most; ls 2
! rt_sim: image: DataTooLarge
!   --data end: the file has over 1048576 bytes, and there is room for 1048564: make it shorter, or the array longer
!   rt_sim help DataTooLarge
! ls: cannot access '2': No such file or directory
? 2

case what is refused, in the order of the options
$ rt_sim image flat 1 --symbols names --data tables=four --data table=missing
! rt_sim: image: NoSymbol
!   --data tables: no symbol that --symbols NM gives the object
!   rt_sim help NoSymbol
? 1
$ rt_sim image flat 1 --data _start=four
! rt_sim: image: NoSymbol
!   --data _start: no symbol that --symbols NM gives the object
!   rt_sim help NoSymbol
? 1
$ rt_sim image flat 1 --symbols names --data table=missing --data tables=four
! rt_sim: file missing
!   no such file
? 3
$ rt_sim image flat two --symbols names --data table=two; cat two; echo
! rt_sim: file two
!   also the input
  XY
$ for it in table =four table= =; do rt_sim image flat 1 --symbols names --data $it; done
! rt_sim: the command line cannot be read
!   --data table: wanted SYMBOL=FILE, as samples=run1.bin
! rt_sim: the command line cannot be read
!   --data =four: wanted SYMBOL=FILE, as samples=run1.bin
! rt_sim: the command line cannot be read
!   --data table=: wanted SYMBOL=FILE, as samples=run1.bin
! rt_sim: the command line cannot be read
!   --data =: wanted SYMBOL=FILE, as samples=run1.bin
? 2

case an ELF file says how many bytes a symbol has
# the second segment is loaded at 80000008 and runs at 80000010, where v has 4 bytes; the image has 24
file hex
  7f454c46010101000000000000000000 0200f300010000000000008034000000 0f0100000000000034002000 0200280004000000
  0100000074000000000000800000008008000000080000000700000004000000 010000007c000000100000800800008004000000080000000700000004000000
  93801000 6f000000 2a000000
  00000000000000000000000000000000 01000000000000800400000010000100 08000000100000800400000011000100 0a000000000000800400000001000100
  0c000000000000800400000000000100 1700000000000180040000001000f1ff 1b00000018000080040000001000f1ff
  00 5f737461727400 7600 7600 24787276333269327031 00 746f7000 656e6400
  0000000000000000000000000000000000000000000000000000000000000000 0000000000000000
  0000000001000000070000000000008074000000 0c0000000000000000000000 0400000000000000
  0000000002000000000000000000000080000000700000000300000001000000 0400000010000000
  00000000030000000000000000000000f00000001f0000000000000000000000 0100000000000000
file make.py
  import sys
  data = bytearray.fromhex("".join(open("hex").read().split()))
  data[168] = int(sys.argv[1])
  open("in", "wb").write(data)
file wanted RTI1\0\0\0\x80\x18\0\0\0\x03\0\0\0\x93\x80\x10\0o\0\0\0*\0\0\0\0\0\0\0abcd\0\0\0\0\x06\0_start\0\0\0\x80\x03\0end\x18\0\0\x80\x01\0v\x10\0\0\x80
file five abcde
$ python3 make.py 4; rt_sim elf in 1 --data v=four 2> told && cmp 1 wanted; sed -n 1p told
  rt_sim: names left out: 2
$ rt_sim elf in 2 --data v=five
! rt_sim: elf: DataTooLarge
!   --data v: the file has 5 bytes, and there is room for 4: make it shorter, or the array longer
!   rt_sim help DataTooLarge
? 1
# where the size isn't said, up to the end of RAM
$ python3 make.py 0; rt_sim elf in 2 --data v=five 2> told; rt_sim show 2 | sed -n 2p
  #   image 24 bytes, entry 80000000 -, 3 symbols
# a symbol that no object has
$ rt_sim elf in 2 --data top=four
! rt_sim: elf: NoSymbol
!   --data top: no symbol of the object; rt_sim show OUT lists them
!   rt_sim help NoSymbol
? 1
