# Words of the command line: what the help says, what each option does, and what is refused.

# It ends at once; it jumps to itself; it jumps to address 0; it sleeps until 1, 2, 3, ..
file end.s _start: ecall\n
file loop.s _start: jal x0,0x80000000\n
file out.s _start: jalr x0,0(x0)\n
file next.s _start: addi x17,x0,2\naddi x10,x10,1\necall\njal x0,0x80000004\n
file end.set hyper 10\ntask 5 10 0 64 end.rti\n
file busy.set hyper 12\ntask 1 3 0 64 loop.rti\ntask 2 4 0 64 loop.rti\n
file over.set hyper 12\ntask 2 3 0 64 loop.rti\ntask 2 4 0 64 loop.rti\n
file flat \x93\0\xf0\xffo\0\0\0
# the command lines of a file that aren't refused with status 2
file refuse sed 's/; /\\n/g' "$1" | while read -r line; do rt_sim $line > told 2>&1 < /dev/null; [ $? = 2 ] || echo "$line"; done\n

case the help lists the commands
$ rt_sim --help | sed -n '/^Commands/,/^$/p'
  Commands:
    asm          Assembles a source into an object file
    elf          Makes an object file of an ELF file
    image        Makes an object file of a flat image
    dis          Lists an object file
    show         Shows what a system file or an object file holds
    solo         Runs one object and prints each tick
    certify      Runs programs alone, and certifies their jobs for every admitted set
    pack         Makes a system file of a set file and the object files that it names
    convert      Writes a system file in version Two
    check        Says whether the tasks of a system file are admitted
    run          Runs the tasks of a system and prints each tick
    report       Runs the tasks of a system and prints what their jobs took
    jobs         Runs the tasks of a system and prints a line for each finished job, as CSV
    profile      Runs the tasks of a system and prints where their ticks went, by symbol
    chart        Runs the tasks of a system and draws when each ran, as SVG
    vcd          Runs the tasks of a system and writes a value change dump, as waveform viewers read it
    trace        Runs the tasks of a system and prints what each tick did
    debug        Runs the tasks of a system by commands from standard input
    gdb          Serves gdb on the tasks of a system, over standard input and output
    completions  Prints what a shell completes
    man          Prints the page of the manual, for man -l -
    help         Print this message or the help of the given subcommand(s)
  

case the help of commands shows forms and columns
file helps
  pack;A set file:
  pack;  # The hyperperiod, a multiple of all periods. Then task BUDGET PERIOD START RAM PATH, a line each.
  pack;  hyper 12
  pack;  task 1 3 0 64 a.rti
  image;  80000000 T _start
  image;  800000e4 t heating
  run;  fault NAME        a fault stopped it for good: rt_sim help NAME
  report;  min, max     the least and the greatest response of finished jobs; - if there are none
  profile;  entered        how often its first instruction was executed
  vcd;  mode0          0 asleep, 1 active, 2 ended, 3 faulted
  trace;  instruction  - if no word was fetched
  gdb;  target remote | rt_sim gdb pair.rts
  jobs;  response   finish + 1 - release
  ;rt_sim help COMMAND has more of a command; rt_sim help WORD explains a reason, as BadMagic, or what
$ while IFS=';' read -r word line; do rt_sim help $word | grep -xF "$line" > shown || echo "$word $line"; done < helps

case lines of help fit a terminal
$ for it in $(rt_sim --help | sed -n '/^Commands/,/^ *help /s/^  \([a-z]*\) .*/\1/p'); do rt_sim help $it; done | awk 'length > 100'

case numbers of ticks
$ for it in 0 1_000_000 0_7 12K 3M 1_0G 1099511627776; do rt_sim solo end.rti --quiet --ticks $it | sed -n 1p; done
  after 0
  after 1000000
  after 7
  after 12000
  after 3000000
  after 10000000000
  after 1099511627776
$ for it in 0 1099511627776; do rt_sim jobs end.rts --ticks $it; done
  task,job,release,finish,response,ticks,fresh,calm,hard,late
  task,job,release,finish,response,ticks,fresh,calm,hard,late
  0,0,0,0,1,1,true,true,true,false

case bytes of RAM: 65,536 unasked
$ for it in '' '--ram 1_0_2_4' '--ram 64K' '--ram 1M' '--ram 8 --split'; do rt_sim solo out.rti --ticks 7 --quiet $it 2>&1 | tail -1; done
    task 0: FetchAccess at 00000000: no instruction there, RAM 80000000 to 8000ffff
    task 0: FetchAccess at 00000000: no instruction there, RAM 80000000 to 800003ff
    task 0: FetchAccess at 00000000: no instruction there, RAM 80000000 to 8000ffff
    task 0: FetchAccess at 00000000: no instruction there, RAM 80000000 to 800fffff
    task 0: FetchAccess at 00000000: no instruction there, RAM 80000000 to 80000007
$ for it in 0 3G 4294967295; do rt_sim solo out.rti --ticks 3 --ram $it 2>&1 | sed -n 1p; done
  rt_sim: load: BadSize
  rt_sim: load: BadSize
  rt_sim: load: BadSize
? 1

case windows of charts
$ for it in '1' '100000 --from 0' '100000 --from 7' '1 --from 1099511627775' '100000 --from 1099511527776'; do
+   rt_sim chart end.rts --ticks $it | sed -n 2p
+ done
  <title>ticks 0 to 0</title>
  <title>ticks 0 to 99999</title>
  <title>ticks 7 to 100006</title>
  <title>ticks 1099511627775 to 1099511627775</title>
  <title>ticks 1099511527776 to 1099511627775</title>

case looks of charts
# beside the picture 111 units for a label of 13 letters and 190, and 111 more where it is wider than 1,600; a low row has 20 units, another
# one 56
$ for it in '' '--width 400' '--width 16000' '--compact' '--compact --width 1200'; do
+   rt_sim chart end.rts --ticks 1 $it | grep -o ' width="[0-9]*" height="[0-9]*"' | sed -n 1p
+ done
   width="1101" height="146"
   width="701" height="146"
   width="16412" height="146"
   width="1101" height="110"
   width="1501" height="110"

case windows of dumps and traces
$ for it in '1' '1099511627776 --from 0' '1 --from 1099511627775' '1099511627770 --from 6'; do
+   rt_sim vcd end.rts --ticks $it | grep '^#' | sed -n '1p;$p'
+   rt_sim trace end.rts --ticks $it | tail -1
+ done
  #0
  #1
  0	0	80000000	_start	ecall	end
  #0
  #1099511627776
  1	idle	1099511627775
  #1099511627775
  #1099511627776
  1099511627775	idle	1
  #6
  #1099511627776
  6	idle	1099511627770

case scales
$ for it in '' '--timescale 100s' '--timescale 10ms' '--timescale 1us' '--timescale 100ns' '--timescale 10ps' '--timescale=1fs'; do
+   rt_sim vcd $it end.rts --ticks 12 | sed -n 1p
+ done
  $timescale 1 ns $end
  $timescale 100 s $end
  $timescale 10 ms $end
  $timescale 1 us $end
  $timescale 100 ns $end
  $timescale 10 ps $end
  $timescale 1 fs $end

case a task of a trace
$ rt_sim trace busy.rts --from 3 --ticks 2
  3	0	80000000	task0:_start	jal x0,0x80000000	pc=80000000
  4	1	80000000	task1:_start	jal x0,0x80000000	pc=80000000
$ rt_sim trace busy.rts --from 3 --ticks 2 --task 0
  3	0	80000000	task0:_start	jal x0,0x80000000	pc=80000000
$ rt_sim trace --task 4294967295 busy.rts --from 3 --ticks 12
! rt_sim: task 4294967295 of 2
!   tasks are 0 to 1
? 1

case the output of a task
$ rt_sim run busy.rts --out 0 --ticks 3
$ rt_sim run busy.rts --ticks 3 --out 4294967295
! rt_sim: task 4294967295 of 2
!   tasks are 0 to 1
? 1

case questions to certify
$ rt_sim certify end.rti --jobs 1 --budget 1 --period 1 --periods 1 --start 0
  certified 1 longest 1 distance - ended
$ rt_sim certify end.rti --jobs 1099511627776
  certified 1 longest 1 distance - ended
$ rt_sim certify next.rti --jobs 9
  certified 9 longest 3 distance 1 next 9
!   no set has a budget over its period: 3 is over 1
$ rt_sim certify loop.rti --jobs 9 2>&1 | sed -n 1p
  rt_sim: certify: OverBudget job 0 pc 80000000 release 0 ticks 4194305
? 1
$ rt_sim certify loop.rti --jobs 2 --budget 4194304 --period 4194304 2>&1 | sed -n 1p
  rt_sim: certify: OverBudget job 0 pc 80000000 release 0 ticks 4194305
? 1
$ rt_sim certify loop.rti --jobs 2 --budget 1 --periods 4096 --start 4294967295 2>&1 | sed -n 1p
  rt_sim: certify: OverBudget job 0 pc 80000000 release 4294967295 ticks 4097
? 1
$ rt_sim certify out.rti --jobs 9 --split --ram 8 --start 2 --budget 3 --period 10 --periods 4 2>&1 | sed -n 1p
  rt_sim: certify: Faults job 0 pc 00000000 FetchAccess
? 1

case forms of reports and of jobs
$ for it in '' --wide --csv; do rt_sim report $it end.rts --ticks 12 | sed -n 1p; done
  task          jobs         ticks           min           max          hard          late
  task          jobs         ticks           min           max          hard          late            stands          most          over         fresh          kept     postponed        yields        budget        period  name
  task,jobs,ticks,min,max,hard,late,stands,most,over,fresh,kept,postponed,yields,granted,refused,response,budget,period,name
$ for it in '' --wide --open '--wide --open'; do rt_sim jobs $it busy.rts --ticks=3; done
  task,job,release,finish,response,ticks,fresh,calm,hard,late
  task,job,release,finish,response,ticks,fresh,calm,hard,late,start,budget,deadline,interrupted,period,over,name
  task,job,release,finish,response,ticks,fresh,calm,hard,late
  0,0,0,,,1,true,true,,
  1,0,0,,,2,true,true,,
  task,job,release,finish,response,ticks,fresh,calm,hard,late,start,budget,deadline,interrupted,period,over,name
  0,0,0,,,1,true,true,,,0,1,3,0,3,,task0
  1,0,0,,,2,true,true,,,1,2,4,0,4,,task1

case failures, each once and in the order of the list
# two tasks that jump to themselves, one that reserves too much, one that faults at once, and one that yields
file reserve.s _start: addi x17,x0,5\naddi x10,x0,99\necall\njal x0,0x8000000c\n
file fault.s _start: .word 0\n
file yield.s _start: addi x17,x0,3\necall\naddi x17,x0,0\necall\n
file in.set hyper 12\ntask 1 12 0 64 loop.rti\ntask 3 12 0 64 reserve.rti\ntask 1 12 0 64 fault.rti\ntask 4 12 0 64 yield.rti\n
$ for it in fault refused,soft,over,fault over,fault,over; do
+   rt_sim run in.rts --ticks 30 --quiet --fail-on=$it 2>&1 >/dev/null | grep -v '^  task'
+ done
  rt_sim: failed: fault task 2
  rt_sim: failed: refused task 1
    soft task 3
    over task 0
    over task 1
    over task 2
    over task 3
    fault task 2
  rt_sim: failed: over task 0
    over task 1
    over task 2
    over task 3
    fault task 2
? 4

case sets whose admission is waived
$ for it in run 'run --quiet' profile trace report jobs chart vcd; do
+   rt_sim $it over.rts --ticks 3 --overloaded 2>&1 >/dev/null
+ done | sort | uniq -c
        8 rt_sim: not admitted: total 14 of 12; nothing is promised
$ for it in debug gdb; do rt_sim $it over.rts --overloaded < /dev/null; done
! rt_sim: not admitted: total 14 of 12; nothing is promised
! rt_sim: not admitted: total 14 of 12; nothing is promised
# nothing is noted of a set that is admitted
$ rt_sim run busy.rts --ticks 3 --overloaded --out 0

case entries of images
# behind --entry is a number of assembly text that is an address
$ for it in 0 4294967295 0X80000004 0x000000080000000 0b100; do rt_sim image flat 1 --entry $it 2>&1 | sed -n 1,2p && rt_sim show 1; done
  rt_sim: image: BadEntry
    entry 00000000: its word isn't in the image, 80000000 to 80000008
  rt_sim: image: BadEntry
    entry ffffffff: no multiple of 4; put .align 2 before it
  # object
  #   image 8 bytes, entry 80000004 -, 0 symbols
  # object
  #   image 8 bytes, entry 80000000 -, 0 symbols
  rt_sim: image: BadEntry
    entry 00000004: its word isn't in the image, 80000000 to 80000008
? 1
# or a name of the list
$ printf '80000000 T _start\n80000004 t main\n' > names; rt_sim image flat made --symbols names --entry main; rt_sim show made
  # object
  #   image 8 bytes, entry 80000004 main, 2 symbols
  80000000 _start
  80000004 main

case names of entries
$ rt_sim asm end.s a --name pid; rt_sim image flat b --name pid; rt_sim show a; rt_sim show b
  # object
  #   image 4 bytes, entry 80000000 pid, 2 symbols
  80000000 _start
  80000000 pid
  # object
  #   image 8 bytes, entry 80000000 pid, 1 symbols
  80000000 pid

case what is no command is refused
# words are missing, are too many, or are none of a command's
file lines
  asm a; elf a; image a; pack a; convert a; debug; gdb; dis; show; show a b; check; solo --ticks 3; solo a; run --ticks 3; run a
  run a --ticks 3 --out; run a --ticks 3 --out 0 --quiet; solo a --ticks 3 --out 0; solo a --ticks 3 --out --quiet; report a
  report a --ticks 3 --wide --csv; report a --ticks 3 --fail-on; report a --ticks 3 --fail-on late; check a --overloaded
  solo a --ticks 3 --overloaded; run a --ticks 3 --fail-on over,late; solo a --ticks 3 --fail-on over
  run a --ticks 3 --except 0; run a --ticks 3 --fail-on over --except; solo a --ticks 3 --fail-on fault --except 0
  chart a --ticks 3 --except
  chart a --ticks 3 --fail-on over; jobs a; profile a; profile a --ticks 3 --needs --callgrind; chart --ticks 3; chart a; vcd a
  vcd --ticks 3; vcd a --ticks 3 --timescale 2ns; vcd a --ticks 3 --timescale 1000ns; vcd a --ticks 3 --timescale ns
  vcd a --ticks 3 --timescale 1; vcd a --ticks 3 --timescale 1NS; trace a; trace --ticks 3; certify a; dis a b; pack a -b; sol a
  asm a b --name 9th; elf a b --name a-b; image a b --name a23456789a23456789a23456789a23456789a23456789a23456789a2345678912
$ bash refuse lines

case what is no number is refused
# a number is one beyond what it may be, or none
file lines
  run a --ticks _1; run a --ticks 1_; run a --ticks 1__0; run a --ticks 1_K; run a --ticks K; run a --ticks 1KK; run a --ticks 1k
  run a --ticks 1T; run a --ticks 1e6; run a --ticks 1.5; run a --ticks +1; run a --ticks =1; run a --ticks 1100G
  run a --ticks 18446744073709551617; run a --ticks 184467440737095516160; run a --ticks 18446744073709552K
  solo a --ticks 1 --ram 4G; run a --ticks 1099511627777; run a --ticks -1; run a --ticks 0x10; jobs a --ticks 1099511627777
  report a --ticks 1099511627777; profile a --ticks 1099511627777; solo a --ticks 1099511627777; solo a --ticks 3 --ram 4294967296
  chart a --ticks 0; chart a --ticks 100001; chart a --ticks 1 --width 399; chart a --ticks 1 --width 16001
  chart a --ticks 100001 --from 7; chart a --ticks 1 --from 18446744073709551615; chart a --ticks 18446744073709551615
  chart a --ticks 1 --from 1099511627776; chart a --ticks 2 --from 1099511627775; chart a --ticks 100000 --from 1099511527777
  vcd a --ticks 0; vcd a --ticks 1099511627777; vcd a --ticks 1 --from 1099511627776; vcd a --ticks 2 --from 1099511627775
  trace a --ticks 0; trace a --ticks 1099511627777; trace a --ticks 1 --from 1099511627776; trace a --ticks 1099511627776 --from 1
  trace a --ticks 1 --task 4294967296; certify a --jobs 0; certify a --jobs 1099511627777; certify a --jobs 1 --budget 0
  certify a --jobs 1 --budget 4194305; certify a --jobs 1 --period 0; certify a --jobs 1 --period 4194305
  certify a --jobs 1 --periods 0; certify a --jobs 1 --periods 4097; certify a --jobs 1 --start 4294967296
  certify a --jobs 1 --ram 4294967296; image a b --entry 4294967296; image a b --entry 0x100000000; image a b --entry 0x
  image a b --entry 08; image a b --entry nonsense
$ bash refuse lines

case words that say what there is
$ for it in 'solo end.rti' 'help BadMagics' 'help BadMagic BadMagic' 'BadMagic help' '' --help; do
+   rt_sim $it 2> told > printed
+   echo $? $(find told printed -size +0)
+ done
  2 told
  2 told
  2 told
  2 told
  2 told
  0 printed
$ rt_sim run $'--\e[31m' 2>&1 | sed -n 1p
  error: unexpected argument '--\x1b[31m' found
? 2

case reasons are explained
$ rt_sim help ZeroBudget
  ZeroBudget task <i> (sets that aren't admitted; status 1; number 4)
    The task's budget is 0.
    What to do: give the task at least 1 tick.
$ rt_sim help BadMagic
  BadMagic (object and system files; status 1; number 1)
    The file doesn't begin with RTI1 (an object), RTS1 or RTS2 (a system).
    What to do: make objects (for solo, certify, dis, pack) by asm, image or elf, systems (for the
    others) by pack or convert.
  BadMagic (ELF files; status 1)
    The file isn't in ELF.
    What to do: give what the linker wrote; image takes what objcopy -O binary made.
$ rt_sim help BadToken
  BadToken (text of a source; status 1; number 1)
    A byte begins no token (;, +, ', %, =, /), an escape is unknown, a string doesn't end.
    What to do: see docs/ASSEMBLY.md.
$ rt_sim help BADSIZE
  BadSize (loading; status 1)
    --ram of solo or certify is no size that RAM may have.
    What to do: give --ram a multiple of 4 from 4 to 1,048,576.
$ rt_sim help OutOfRange
  OutOfRange (layout and operands of a source; status 1; number 3)
    A count of .zero, .space or .align is below 0 or over its limit.
    What to do: write at most 1,048,576, or 12 for .align.
  OutOfRange (layout and operands of a source; status 1; number 3)
    A number exceeds what its place holds, or a target is too far away.
    What to do: see docs/ASSEMBLY.md; for a far target branch around a j or a call.
$ rt_sim help badmagic | cmp - <(rt_sim help BadMagic)
# no reason has such a name
$ for it in '' Bad BadMagics 'BadMagic '; do rt_sim help "$it" > told 2>&1; echo $?; done | uniq -c
        4 2

case words that are printed
$ rt_sim help late
  Of rt_sim report:
    late         hard jobs with a response over the period: 0 in every admitted set
  Of rt_sim jobs:
    late       whether it is hard, and its response over the period: never in an admitted set
$ rt_sim help max | head -1
  Of rt_sim report:
$ rt_sim help effect
  Of rt_sim trace:
    effect       a register's new value, the address of a load (from), the bytes of a store, the next
                 pc where it isn't pc + 4, what a call or a fault came to: rt_sim help run
$ for it in sleep over fresh0 step within; do rt_sim help $it | head -1; done
  Of rt_sim run:
  Of rt_sim report:
  Of rt_sim vcd:
  Of rt_sim debug:
  Of rt_sim profile:
$ for it in '' 80000000 Example: pc-4; do rt_sim help "$it" 2> told; echo $?; done
  2
  2
  2
  2

$ rt_sim help distance
  Of rt_sim certify:
    distance   the fewest ticks from the release of one of them to the tick until which it sleeps

case the nearest of the words that help explains
file rows
  BadMagics BadMagic
  overbuget OverBudget
  lat late
  intterupted interrupted
  repotr report
  granteds granted
$ while read -r word near; do rt_sim help $word 2> told; grep -qxF "  tip: a similar word exists: '$near'" told || echo $word; done < rows
$ rt_sim help lat
! error: unrecognized subcommand 'lat'
! 
!   tip: a similar word exists: 'late'
! 
! For more information, try '--help'.
? 2
$ for it in zz qqqqqq Bad; do rt_sim help $it 2>&1 | grep -c 'similar word'; done | uniq -c
        3 0
? 1

case what the program says of itself
$ rt_sim --version | sed 's/,.*//'; rt_sim -V -V | sed '1s/,.*//'; rt_sim --version --verbose | cmp - <(rt_sim -V -V)
  rt_sim 0.1
  rt_sim 0.1
  machine: RV32I on one hart, up to 64 tasks, 2^40 ticks
  reads: assembly, ELF, flat images, RTI1, RTS1, RTS2
  prints: runs, reports, CSV, callgrind, SVG, VCD, certificates
  serves: debug, gdb

case what shells complete
$ rt_sim completions bash > told; . ./told; for it in r 'report --w' 'jobs a --fail-on s' 'completions z' 'help v' m; do COMP_WORDS=(rt_sim $it); COMP_CWORD=$((${#COMP_WORDS[@]} - 1)); _rt_sim; echo ${COMPREPLY[*]}; done
  run report
  --wide
  soft
  zsh
  vcd
  man
$ rt_sim completions zsh | sed -n '1p; s/^  check) //p; s/^  dis) //p'
  #compdef rt_sim
  options=() ;;
  options=() ;;
$ rt_sim completions zsh | grep -o "'chart:[^']*'\|'entry:[^']*'"
  'chart:Runs the tasks of a system and draws when each ran, as SVG'
  'entry:The first instruction\: its address, or its name in NM'
$ rt_sim completions fish | grep -- '-l csv\|-a check'
  complete -c rt_sim -n __fish_use_subcommand -f -a check -d 'Says whether the tasks of a system file are admitted'
  complete -c rt_sim -n '__fish_seen_subcommand_from report' -l csv -d 'That and its reserves, as comma-separated values'
$ rt_sim completions tcsh 2> told
? 2

case the page of the manual
$ rt_sim man | sed -n '1,3p; /^.SS dis/,/^.SS show/p'
  .TH RT_SIM 1
  .SH NAME
  rt_sim \- simulates tasks on one RISC\-V hart, tick by tick
  .SS dis OBJ
  \&Lists an object file
  .TP
  OBJ
  \&The object file (RTI1)
  .PP
  .nf
  \&Example: rt_sim dis sum.rti
  .fi
  .SS show FILE

case a dash is a standard stream
$ rt_sim asm loop.s - | rt_sim dis -
  _start:
      jal x0,0x80000000 # 80000000 0000006f
$ rt_sim asm - - < loop.s | cmp - loop.rti
$ rt_sim asm - out.rti < loop.s && cmp out.rti loop.rti
$ rt_sim asm loop.s - > /dev/full
! rt_sim: device after 0 bytes
!   /dev/stdout: no room on the device
? 3
$ rt_sim run - --ticks 1 < /dev/null
! rt_sim: image: Truncated
!   /dev/stdin: this is an empty file, wanted a system: make it again
!   rt_sim help Truncated
? 1

case a reader that has gone
$ rt_sim run busy.rts --ticks 1000000 | head -1
  0 0 80000000 0000006f next
? 141
$ rt_sim check over.rts | false
! rt_sim: set: Overload total 14 hyper 12
!   rt_sim help Overload
? 1
