# What is said of tasks that faulted: words as another assembler spells them, and addresses that were added up by hand.

# The words of a task with 64 bytes of RAM, a name at its first word, and two at its second, are put behind these symbols.
file fault.sh
  # what is said of these words after sixteen ticks
  set -- $1
  { echo "_start: .word $1"; echo "motor: motor_begin: .word ${2:-0}"; shift; for it in "${@:2}"; do echo ".word $it"; done; } > in.s
  rt_sim asm in.s in.rti && rt_sim solo in.rti --ticks 16 --ram 64 --quiet 2>&1 > out | sed "s/^  task 0: //"

case each fault has a line
# the words; what is said of them. Where it differs, the words are printed
file rows
  0x00000000; Illegal at _start: 00000000, no instruction: past the program's end?
  0xffffffff; Illegal at _start: ffffffff, no instruction
  0x00000013 0x02b50533; Illegal at motor: 02b50533 (mul: M)
  0x02b57533; Illegal at _start: 02b57533 (remu: M)
  0x40b57533; Illegal at _start: 40b57533 (Zba, Zbb or their kin)
  0x00010001; Illegal at _start: 00010001 (a compressed instruction: C)
  0xc0002573; Illegal at _start: c0002573 (a control register: Zicsr)
  0x30200073; Illegal at _start: 30200073 (a privileged instruction)
  0x0000100f; Illegal at _start: 0000100f (fence.i: Zifencei)
  0x1000252f; Illegal at _start: 1000252f (an atomic: A)
  0x00000053; Illegal at _start: 00000053 (floating point: F or D)
  0x00002007; Illegal at _start: 00002007 (floating point: F or D)
  0x00000057; Illegal at _start: 00000057 (a vector: V)
  0x00003503; Illegal at _start: 00003503 (of RV64)
  0x0000001b; Illegal at _start: 0000001b (of RV64)
  0xffc02503; LoadAccess at _start: lw x10,-4(x0): fffffffc, RAM 80000000 to 8000003f
  0x00000013 0x00002023; StoreAccess at motor: sw x0,0(x0): 00000000, RAM 80000000 to 8000003f
  0x00000013 0x00002123; StoreMisaligned at motor: sw x0,2(x0): 00000002, no multiple of 4
  0x00000013 0x00000013 0x00101503; LoadMisaligned at motor+0x4: lh x10,1(x0): 00000001, no multiple of 2
  0x00300067; JumpMisaligned at _start: jalr x0,3(x0): 00000002, no multiple of 4
  0x00000013 0x0020006f; JumpMisaligned at motor: jal x0,0x80000006: 80000006, no multiple of 4
  0x00000163; JumpMisaligned at _start: beq x0,x0,0x80000002: 80000002, no multiple of 4
  0x00000067; FetchAccess at 00000000: no instruction there, RAM 80000000 to 8000003f
  0x00100073; Break at _start: ebreak
  0x05d00893 0x00000073; UnknownCall at motor: ecall 93 in a7, calls are 0 to 5
  0xfea12e23; StoreAccess at _start: sw x10,-4(x2): fffffffc, RAM 80000000 to 8000003f
  0x02b51533; Illegal at _start: 02b51533 (mulh: M)
  0x02b52533; Illegal at _start: 02b52533 (mulhsu: M)
  0x02b53533; Illegal at _start: 02b53533 (mulhu: M)
  0x02b54533; Illegal at _start: 02b54533 (div: M)
  0x02b55533; Illegal at _start: 02b55533 (divu: M)
  0x02b56533; Illegal at _start: 02b56533 (rem: M)
  0x00b53023; Illegal at _start: 00b53023 (of RV64)
  0x00056503; Illegal at _start: 00056503 (of RV64)
  0x0000003b; Illegal at _start: 0000003b (of RV64)
  0x30009073; Illegal at _start: 30009073 (a control register: Zicsr)
  0x3000b073; Illegal at _start: 3000b073 (a control register: Zicsr)
  0x3000d073; Illegal at _start: 3000d073 (a control register: Zicsr)
  0x3000e073; Illegal at _start: 3000e073 (a control register: Zicsr)
  0x3000f073; Illegal at _start: 3000f073 (a control register: Zicsr)
  0x00000027; Illegal at _start: 00000027 (floating point: F or D)
  0x00000043; Illegal at _start: 00000043 (floating point: F or D)
  0x00000047; Illegal at _start: 00000047 (floating point: F or D)
  0x0000004b; Illegal at _start: 0000004b (floating point: F or D)
  0x0000004f; Illegal at _start: 0000004f (floating point: F or D)
  0xffc00503; LoadAccess at _start: lb x10,-4(x0): fffffffc, RAM 80000000 to 8000003f
  0xffc04503; LoadAccess at _start: lbu x10,-4(x0): fffffffc, RAM 80000000 to 8000003f
  0xffc01503; LoadAccess at _start: lh x10,-4(x0): fffffffc, RAM 80000000 to 8000003f
  0xffc05503; LoadAccess at _start: lhu x10,-4(x0): fffffffc, RAM 80000000 to 8000003f
  0x00000023; StoreAccess at _start: sb x0,0(x0): 00000000, RAM 80000000 to 8000003f
  0x00001023; StoreAccess at _start: sh x0,0(x0): 00000000, RAM 80000000 to 8000003f
  0x00105503; LoadMisaligned at _start: lhu x10,1(x0): 00000001, no multiple of 2
  0x000010a3; StoreMisaligned at _start: sh x0,1(x0): 00000001, no multiple of 2
  0x00005163; JumpMisaligned at _start: bge x0,x0,0x80000002: 80000002, no multiple of 4
  0x00007163; JumpMisaligned at _start: bgeu x0,x0,0x80000002: 80000002, no multiple of 4
  0x00100093 0x00009163; JumpMisaligned at motor: bne x1,x0,0x80000006: 80000006, no multiple of 4
  0x00100093 0x00104163; JumpMisaligned at motor: blt x0,x1,0x80000006: 80000006, no multiple of 4
  0x00100093 0x00106163; JumpMisaligned at motor: bltu x0,x1,0x80000006: 80000006, no multiple of 4
$ while IFS=";" read -r words wanted; do said=$(bash fault.sh "$words"); [ " $said" = "$wanted" ] || echo "$words: $said"; done < rows

case lines come in the order of tasks
file breaks.s _start: ebreak\n
file later.s _start: nop\nmotor: ebreak\n
file loop.s _start: j _start\n
file end.s _start: ecall\n
file both.set hyper 2\ntask 1 2 0 64 breaks.rti\ntask 1 2 0 64 later.rti\n
file second.set hyper 2\ntask 1 2 0 64 loop.rti\ntask 1 2 0 64 breaks.rti\n
file none.set hyper 2\ntask 1 2 0 64 loop.rti\ntask 1 2 0 64 end.rti\n
$ rt_sim run both.rts --ticks 16 --quiet > out
!   task 0: Break at _start: ebreak
!   task 1: Break at motor: ebreak
$ rt_sim run second.rts --ticks 16 --quiet > out
!   task 1: Break at _start: ebreak
# nothing is said of tasks that go on or end
$ rt_sim run none.rts --ticks 16 --quiet > out
