# Sessions of gdb. What is said in them was worked out by hand.

# The set of examples/pair: task 0 runs the ticks 0 to 5 and 12, where it ends, task 1, which jumps to itself, all others. In later, the
# tasks start at ticks 8 and 4.
file hello.s .globl _start\n_start: la a0, word\nli a1, 3\nli a7, 1\necall\nli a7, 0\necall\nword: .ascii "hi\\n"\n
file spin.s _start: j _start\n
file pair.set hyper 12\ntask 2 4 0 64 hello.rti\ntask 6 12 0 64 spin.rti\n
file later.set hyper 12\ntask 2 4 8 64 hello.rti\ntask 6 12 4 64 spin.rti\n

case a session, and runs that are interrupted
# within a run that never stops it says beats, each after 4,194,304 ticks
$ rt_sim gdb pair.rts
> qSupported:multiprocess+;swbreak+;hwbreak+   +$PacketSize=1000;multiprocess+;swbreak+;hwbreak+;vContSupported+;ReverseStep+;ReverseContinue+;qXfer:features:read+
> vMustReplyEmpty                  +$
> Hgp0.0                           +$OK
> ?                                +$T05thread:p1.1;
> qfThreadInfo                     +$mp1.1,p2.2
> qsThreadInfo                     +$l
> qC                               +$QCp1.1
> Hgp2.2                           +$OK
> p20                              +$00000080
> qThreadExtraInfo,p1.1            +$7461736b20302061637469766520632032206420342071203220702034
> Tp3.3                            +$E01
> Hgp1.1                           +$OK
> vCont?                           +$vCont;c;C;s;S
> Z0,80000010,4                    +$OK
> vCont;c                          +$T05swbreak:;thread:p1.1;
> p21                              +$0400000000000000
> p22                              +$02000000
> p23                              +$0c00000000000000
> m8000001c,3                      +$68690a
> m8000003e,8                      +$0000
> m80000040,4                      +$E0e
> P0a=00000000                     +$E1e
> vCont;s:p1.1                     +$T05thread:p1.1;
> qRcmd,7768657265                 +$O7469636b2035206e65787420302038303030303031340a
  $OK
> qRcmd,6f75742030                 +$O6f75742033203638363930610a
  $OK
> bs                               +$T05thread:p1.1;
> vCont;c:p1.1                     +$O3132203020383030303030313820303030303030373320656e640a
  $T0fthread:p1.1;
> vCont;c:p1.1                     +$T05replaylog:end;thread:p1.1;
> Hc0                              +$OK
> Hgp2.2                           +$OK
> bs                               +$T05thread:p2.2;
> p21                              +$0b00000000000000
> bc                               +$T05swbreak:;thread:p1.1;
> z0,80000010,4                    +$OK
> bc                               +$T05replaylog:begin;thread:p1.1;
> Hgp2.2                           +$OK
> Z0,80000000,4                    +$OK
> vCont;c                          +$T05swbreak:;thread:p2.2;
> vCont;c                          +$T05swbreak:;thread:p2.2;
> z0,80000000,4                    +$OK
> qRcmd,61742039                   +$O617420390a
  $OK
> vCont;c                          +$T00thread:p2.2;
> qRcmd,6174                       +$O6174206e6f6e650a
  $OK
> qRcmd,73746570                   +$O72656675736564203120556e6b6e6f776e436f6d6d616e640a77616e7465643a2077686572652c207265677320692c2073657276657220692c206d656d20692061206e2c206c69737420692061206e2c206f757420692c207472616365206e2c2061742c20617420742c206174206e6f6e652c2073746f70207720692c20756e73746f70207720692c2068656c700a
  $OK
>> $p21#00                         -
>> -                               $OK
>> $p2$p21#d3                      +$0900000000000000
>> \x03
> vCont;c:p9.9                     +$E01
> vCont;c                          +$T02thread:p2.2;
> vCont;c                          +$O3132203020383030303030313820303030303030373320656e640a
  $T0fthread:p1.1;
> vCont;c                          +$O
>> -                               $O
>> +                               $O
>> \x03                            $T02thread:p2.2;
> D;1                              +$OK
> qfThreadInfo                     +$mp2.2
> k                                +

case a watchpoint and a fault
# The task of examples/fault with 2 ticks of 4, beside one with 6 of 12 that jumps to itself. It loads from 80000034 at tick 25, and faults
# at tick 41.
file total.s
  _start: la a0, table
  li a1, 4
  next: lw a2, 0(a0)
  add a3, a3, a2
  addi a0, a0, 4
  addi a1, a1, -1
  bnez a1, next
  lw a4, 2(a0)
  li a7, 0
  ecall
  table: .word 3, 5, 7, 11
file fault.set hyper 12\ntask 2 4 0 64 total.rti\ntask 6 12 0 64 spin.rti\n
$ rt_sim gdb fault.rts
> qSupported:multiprocess+         +$PacketSize=1000;multiprocess+;swbreak+;hwbreak+;vContSupported+;ReverseStep+;ReverseContinue+;qXfer:features:read+
> Z3,80000034,4                    +$OK
> vCont;c                          +$T05rwatch:80000034;thread:p1.1;
> vCont;c                          +$O34312030203830303030303230203030323532373033206661756c74204c6f61644d6973616c69676e65640a
  $T0athread:p1.1;
> bs                               +$T05thread:p1.1;
> bc                               +$T05rwatch:80000034;thread:p1.1;
> p21                              +$1a00000000000000
> bc                               +$T05replaylog:begin;thread:p1.1;
# a step of the task that has faulted is answered at once
$ rt_sim gdb fault.rts
> qSupported:multiprocess+         +$PacketSize=1000;multiprocess+;swbreak+;hwbreak+;vContSupported+;ReverseStep+;ReverseContinue+;qXfer:features:read+
> vCont;c:p1.1                     +$O34312030203830303030303230203030323532373033206661756c74204c6f61644d6973616c69676e65640a
  $T0athread:p1.1;
> vCont;s:p1.1;c                   +$T0athread:p1.1;
> p21                              +$2a00000000000000

case an interrupt between requests is kept for the next one that would go
# several are one; what doesn't go leaves it, and one that is refused; D, D;2 and qSupported forget it
$ rt_sim gdb pair.rts
> qSupported:multiprocess+         +$PacketSize=1000;multiprocess+;swbreak+;hwbreak+;vContSupported+;ReverseStep+;ReverseContinue+;qXfer:features:read+
>> \x03\x03
> p21                              +$0000000000000000
> vCont;c                          +$T02thread:p1.1;
> p21                              +$0000000000000000
> ?                                +$T02thread:p1.1;
> vCont;s:p1.1                     +$T05thread:p1.1;
> p21                              +$0100000000000000
>> \x03
> bs                               +$T02thread:p1.1;
> bs                               +$T05thread:p1.1;
>> \x03
> bc                               +$T02thread:p1.1;
> bc                               +$T05replaylog:begin;thread:p1.1;
>> \x03
> s                                +$T02thread:p1.1;
> s                                +$T05thread:p1.1;
>> \x03
> c                                +$T02thread:p1.1;
>> \x03
> vCont;C05:p2.2                   +$T02thread:p2.2;
> p21                              +$0100000000000000
>> \x03
> vCont;c:p9.9                     +$E01
> Z0,80000000,4                    +$OK
> z0,80000000,4                    +$OK
> qRcmd,6174                       +$O6174206e6f6e650a
  $OK
> vCont;s:p1.1                     +$T02thread:p1.1;
> vCont;s:p1.1                     +$T05thread:p1.1;
>> \x03
> qSupported:multiprocess+         +$PacketSize=1000;multiprocess+;swbreak+;hwbreak+;vContSupported+;ReverseStep+;ReverseContinue+;qXfer:features:read+
> vCont;s:p1.1                     +$T05thread:p1.1;
>> \x03
> D;2                              +$OK
> vCont;s:p1.1                     +$T05thread:p1.1;
> p21                              +$0400000000000000
>> \x03
> D;2                              +$E01
> bs                               +$T02thread:p1.1;
>> \x03
> D                                +$OK
> bs                               +$E01
> k                                +

case a step of a task that has ended is answered at once
# task 0 of pair ends at tick 12; a step of all tasks goes on by the one that lives. Alone a task takes the machine to its end.
$ rt_sim gdb pair.rts
> qSupported:multiprocess+         +$PacketSize=1000;multiprocess+;swbreak+;hwbreak+;vContSupported+;ReverseStep+;ReverseContinue+;qXfer:features:read+
> vCont;c:p1.1                     +$O3132203020383030303030313820303030303030373320656e640a
  $T0fthread:p1.1;
> vCont;s:p1.1;c                   +$T0fthread:p1.1;
> ?                                +$T0fthread:p1.1;
> vCont;S0f:p1.1                   +$T0fthread:p1.1;
> Hcp1.1                           +$OK
> s                                +$T0fthread:p1.1;
> p21                              +$0d00000000000000
> vCont;c:p1.1                     +$T05replaylog:end;thread:p1.1;
> vCont;s                          +$T05thread:p2.2;
> p21                              +$0e00000000000000
file ended.s _start: ecall\n
file ended.set hyper 1\ntask 1 1 0 64 ended.rti\n
$ rt_sim gdb ended.rts
> qSupported:multiprocess+         +$PacketSize=1000;multiprocess+;swbreak+;hwbreak+;vContSupported+;ReverseStep+;ReverseContinue+;qXfer:features:read+
> vCont;c                          +$O30203020383030303030303020303030303030373320656e640a
  $T0fthread:p1.1;
> vCont;s:p1.1                     +$T05replaylog:end;thread:p1.1;
> p21                              +$0100000000000000

case a refusal of monitor says what is wanted in a second line
# each line of monitor stands above its digits
$ rt_sim gdb pair.rts
> qSupported:multiprocess+         +$PacketSize=1000;multiprocess+;swbreak+;hwbreak+;vContSupported+;ReverseStep+;ReverseContinue+;qXfer:features:read+
# what
> qRcmd,77686174   +$O72656675736564203120556e6b6e6f776e436f6d6d616e640a77616e7465643a2077686572652c207265677320692c2073657276657220692c206d656d20692061206e2c206c69737420692061206e2c206f757420692c207472616365206e2c2061742c20617420742c206174206e6f6e652c2073746f70207720692c20756e73746f70207720692c2068656c700a
  $OK
# mem 0 0x80000000
> qRcmd,6d656d20302030783830303030303030   +$O72656675736564203120556e6b6e6f776e436f6d6d616e640a77616e7465643a206d656d205441534b204144445245535320434f554e542c206173206d656d203020307838303030303030302031363b203120746f203235362062797465730a
  $OK
# mem 0 word 4
> qRcmd,6d656d203020776f72642034   +$O72656675736564203120556e6b6e6f776e436f6d6d616e640a77616e7465643a206d656d205441534b204144445245535320434f554e542c206173206d656d203020307838303030303030302031363b203120746f203235362062797465730a
  $OK
# list 0 0x80000000 65
> qRcmd,6c69737420302030783830303030303030203635   +$O72656675736564203120556e6b6e6f776e436f6d6d616e640a77616e7465643a206c697374205441534b204144445245535320434f554e542c206173206c6973742030203078383030303030303020343b203120746f20363420776f7264730a
  $OK
# regs
> qRcmd,72656773   +$O72656675736564203120556e6b6e6f776e436f6d6d616e640a77616e7465643a2072656773205441534b2c2061206e756d6265722066726f6d20300a
  $OK
# server x
> qRcmd,7365727665722078   +$O72656675736564203120556e6b6e6f776e436f6d6d616e640a77616e7465643a20736572766572205441534b2c2061206e756d6265722066726f6d20300a
  $OK
# out 01
> qRcmd,6f7574203031   +$O72656675736564203120556e6b6e6f776e436f6d6d616e640a77616e7465643a206f7574205441534b2c2061206e756d6265722066726f6d20300a
  $OK
# trace 257
> qRcmd,747261636520323537   +$O72656675736564203120556e6b6e6f776e436f6d6d616e640a77616e7465643a20747261636520434f554e542c203120746f203235360a
  $OK
# where 0
> qRcmd,77686572652030   +$O72656675736564203120556e6b6e6f776e436f6d6d616e640a77616e7465643a2077686572650a
  $OK
# at 1099511627777
> qRcmd,61742031303939353131363237373737   +$O72656675736564203120556e6b6e6f776e436f6d6d616e640a77616e7465643a206174205449434b2c203020746f20313039393531313632373737362c206f72206174206e6f6e650a
  $OK
# regs 2
> qRcmd,726567732032   +$O72656675736564203220556e6b6e6f776e5461736b0a77616e7465643a2061207461736b2066726f6d203020746f20310a
  $OK
# mem 0 80000000 16
> qRcmd,6d656d2030203830303030303030203136   +$O72656675736564203420426164416464726573730a77616e7465643a206f66207468652036342062797465732066726f6d2030783830303030303030206f6e2c20776f726473206174206d756c7469706c6573206f6620340a
  $OK
# list 1 0x80000002 1
> qRcmd,6c697374203120307838303030303030322031   +$O72656675736564203420426164416464726573730a77616e7465643a206f66207468652036342062797465732066726f6d2030783830303030303030206f6e2c20776f726473206174206d756c7469706c6573206f6620340a
  $OK

case sessions without processes: a breakpoint is of all tasks
$ rt_sim gdb pair.rts
> qSupported:swbreak+              +$PacketSize=1000;swbreak+;hwbreak+;vContSupported+;ReverseStep+;ReverseContinue+;qXfer:features:read+
> ?                                +$T05thread:1;
> qfThreadInfo                     +$m1,2
> Z0,80000000,4                    +$OK
> vCont;c                          +$T05swbreak:;thread:2;
> p21                              +$0600000000000000
> z0,80000000,4                    +$OK
> Z0,80000002,4                    +$E0e
> Z0,80000040,4                    +$E0e
> Z2,80000000,0                    +$E0e
> Z5,80000000,4                    +$
> Hg1                              +$OK
> qC                               +$QC1
> bc                               +$T05replaylog:begin;thread:1;

case once the task that bc is for is let go, all others are looked at
$ rt_sim gdb pair.rts
> qSupported:multiprocess+         +$PacketSize=1000;multiprocess+;swbreak+;hwbreak+;vContSupported+;ReverseStep+;ReverseContinue+;qXfer:features:read+
> Hgp2.2                           +$OK
> Z0,80000000,4                    +$OK
> Hcp2.2                           +$OK
> vCont;c                          +$T05swbreak:;thread:p2.2;
> D;2                              +$OK
> bc                               +$T05replaylog:begin;thread:p1.1;
> p21                              +$0000000000000000
> D;2                              +$E01
> D;1                              +$OK
> qfThreadInfo                     +$l

case tasks start at ticks 8 and 4: where no task is named, the first one is reported
$ rt_sim gdb later.rts
> qSupported:multiprocess+         +$PacketSize=1000;multiprocess+;swbreak+;hwbreak+;vContSupported+;ReverseStep+;ReverseContinue+;qXfer:features:read+
> ?                                +$T05thread:p1.1;
> qC                               +$QCp1.1
> vCont;s:p2.2                     +$T05thread:p2.2;
> p21                              +$0500000000000000

case packets with their sums, and points that go with their task
# 1,024 points of task 2 are the most that there are
$ printf '$Hgp2.2#b1$qSupported:multiprocess+#c6$Hgp2.2#b1$qC#b4'  | rt_sim gdb pair.rts; echo
  +$OK#9a+$PacketSize=1000;multiprocess+;swbreak+;hwbreak+;vContSupported+;ReverseStep+;ReverseContinue+;qXfer:features:read+#96+$OK#9a+$QCp2.2#96
file points.py
  def packet(payload):
      return f"${payload}#{sum(payload.encode()) % 256:02x}"
  points = [f"Z2,{0x90000000 + it:x},1" for it in range(1024)]
  behind = ["Hgp1.1", "Z2,80000000,1", "D;2", "Z2,80000000,1"]
  print("".join(map(packet, ["qSupported:multiprocess+", "Hgp2.2", *points, *behind])), end="")
$ python3 points.py | rt_sim gdb pair.rts | sed 's/#../&\n/g' | sed 1,2d | uniq -c
     1025 +$OK#9a
        1 +$E1c#d9
        2 +$OK#9a

case stops at events
# Of naps, task 0 runs the ticks 0 to 2, where it sleeps till 12, 12 and 13, where it sleeps till 24, 24 and 25, where it ends; task 1 runs all
# others, and uses up its budget of 4 behind ticks 6, 10, 16, 20, 26.. Alone, with a start at 5, task 0 sleeps till 12 at tick 7.
# What is said stands above its digits.
file nap.s .globl _start\n_start: li a0, 12\nli a7, 2\necall\nli a0, 24\necall\nli a7, 0\necall\n
file naps.set hyper 12\ntask 3 6 0 64 nap.rti\ntask 4 12 0 64 spin.rti\n
file alone.set hyper 10\ntask 4 10 5 64 nap.rti\n
$ rt_sim gdb naps.rts
> qSupported:multiprocess+         +$PacketSize=1000;multiprocess+;swbreak+;hwbreak+;vContSupported+;ReverseStep+;ReverseContinue+;qXfer:features:read+
# stop wake
> qRcmd,73746f702077616b65         +$O73746f702077616b650a
  $OK
# wake: task 0
> vCont;c                          +$O77616b653a207461736b20300a
  $T05thread:p1.1;
> p21                              +$0c00000000000000
# wake: task 0
> vCont;c                          +$O77616b653a207461736b20300a
  $T05thread:p1.1;
> p21                              +$1800000000000000
# wake: task 0
> bc                               +$O77616b653a207461736b20300a
  $T05thread:p1.1;
> p21                              +$0c00000000000000
> bc                               +$T05replaylog:begin;thread:p1.1;
# unstop wake
> qRcmd,756e73746f702077616b65     +$O756e73746f702077616b650a
  $OK
# stop dispatch 1
> qRcmd,73746f702064697370617463682031   +$O73746f7020646973706174636820310a
  $OK
# stop postponed
> qRcmd,73746f7020706f7374706f6e6564   +$O73746f7020706f7374706f6e65640a
  $OK
# dispatch: task 1
> vCont;c                          +$O64697370617463683a207461736b20310a
  $T05thread:p2.2;
# postponed: task 1
> vCont;c                          +$O706f7374706f6e65643a207461736b20310a
  $T05thread:p2.2;
> p21                              +$0700000000000000
# postponed: task 1
> vCont;c                          +$O706f7374706f6e65643a207461736b20310a
  $T05thread:p2.2;
> p21                              +$0b00000000000000
# postponed: task 1
> bc                               +$O706f7374706f6e65643a207461736b20310a
  $T05thread:p2.2;
> p21                              +$0700000000000000
# at 11
> qRcmd,6174203131                 +$O61742031310a
  $OK
# postponed: task 1
> vCont;c                          +$O706f7374706f6e65643a207461736b20310a
  $T05thread:p2.2;
> p21                              +$0b00000000000000
# at
> qRcmd,6174                       +$O61742031310a
  $OK
# 25 0 80000018 00000073 end
> vCont;c:p1.1                     +$O3235203020383030303030313820303030303030373320656e640a
  $T0fthread:p1.1;
> p21                              +$1a00000000000000
# unstop postponed
> qRcmd,756e73746f7020706f7374706f6e6564   +$O756e73746f7020706f7374706f6e65640a
  $OK
# unstop dispatch
> qRcmd,756e73746f70206469737061746368   +$O756e73746f702064697370617463680a
  $OK
# stop finish 0
> qRcmd,73746f702066696e6973682030   +$O73746f702066696e69736820300a
  $OK
# finish: task 0 job 1
> bc                               +$O66696e6973683a207461736b2030206a6f6220310a
  $T05thread:p1.1;
> p21                              +$0e00000000000000
> bc                               +$T00thread:p2.2;
> p21                              +$0b00000000000000
# finish: task 0 job 0
> bc                               +$O66696e6973683a207461736b2030206a6f6220300a
  $T05thread:p1.1;
# stop over
> qRcmd,73746f70206f766572         +$O73746f70206f7665720a
  $OK
# over: task 1 job 0
> vCont;c                          +$O6f7665723a207461736b2031206a6f6220300a
  $T05thread:p2.2;
> p21                              +$0c00000000000000
# finish: task 0 job 1
> vCont;c                          +$O66696e6973683a207461736b2030206a6f6220310a
  $T05thread:p1.1;
# over: task 1 job 0
> bc                               +$O6f7665723a207461736b2031206a6f6220300a
  $T05thread:p2.2;
$ rt_sim gdb alone.rts
> qSupported:multiprocess+         +$PacketSize=1000;multiprocess+;swbreak+;hwbreak+;vContSupported+;ReverseStep+;ReverseContinue+;qXfer:features:read+
# stop dispatch
> qRcmd,73746f70206469737061746368   +$O73746f702064697370617463680a
  $OK
# dispatch: task 0
> vCont;c                          +$O64697370617463683a207461736b20300a
  $T05thread:p1.1;
> p21                              +$0500000000000000
# dispatch: task 0
> vCont;c                          +$O64697370617463683a207461736b20300a
  $T05thread:p1.1;
> p21                              +$0c00000000000000
# stop wake 0
> qRcmd,73746f702077616b652030     +$O73746f702077616b6520300a
  $OK
# wake: task 0
> bc                               +$O77616b653a207461736b20300a
  $T05thread:p1.1;
> p21                              +$0500000000000000
# wake: task 0
> vCont;c                          +$O77616b653a207461736b20300a
  $T05thread:p1.1;
> p21                              +$0c00000000000000
# wake: task 0
> bc                               +$O77616b653a207461736b20300a
  $T05thread:p1.1;
> bc                               +$T05replaylog:begin;thread:p1.1;
> p21                              +$0000000000000000
$ rt_sim gdb alone.rts
> qSupported:multiprocess+         +$PacketSize=1000;multiprocess+;swbreak+;hwbreak+;vContSupported+;ReverseStep+;ReverseContinue+;qXfer:features:read+
# stop: refused
> qRcmd,73746f70                   +$O72656675736564203120556e6b6e6f776e436f6d6d616e640a77616e7465643a2073746f70206f7220756e73746f702c2077616b652c2064697370617463682c20706f7374706f6e65642c2066696e6973682c206f766572206f72206661756c742c20616e64205441534b2c2061206e756d626572206f722061206e616d652c206f72206e6f6e650a
  $OK
# stop sleep: refused
> qRcmd,73746f7020736c656570       +$O72656675736564203120556e6b6e6f776e436f6d6d616e640a77616e7465643a2073746f70206f7220756e73746f702c2077616b652c2064697370617463682c20706f7374706f6e65642c2066696e6973682c206f766572206f72206661756c742c20616e64205441534b2c2061206e756d626572206f722061206e616d652c206f72206e6f6e650a
  $OK
# stop wake 01: refused
> qRcmd,73746f702077616b65203031   +$O72656675736564203120556e6b6e6f776e436f6d6d616e640a77616e7465643a2073746f70206f7220756e73746f702c2077616b652c2064697370617463682c20706f7374706f6e65642c2066696e6973682c206f766572206f72206661756c742c20616e64205441534b2c2061206e756d626572206f722061206e616d652c206f72206e6f6e650a
  $OK
# stop wake x: refused
> qRcmd,73746f702077616b652078     +$O72656675736564203220556e6b6e6f776e5461736b0a77616e7465643a2061207461736b2066726f6d203020746f20302c206f722061206e616d652074686174206f6e65207461736b206861730a
  $OK
# stop wake 1: refused
> qRcmd,73746f702077616b652031     +$O72656675736564203220556e6b6e6f776e5461736b0a77616e7465643a2061207461736b2066726f6d203020746f20302c206f722061206e616d652074686174206f6e65207461736b206861730a
  $OK
# unstop late: refused
> qRcmd,756e73746f70206c617465     +$O72656675736564203120556e6b6e6f776e436f6d6d616e640a77616e7465643a2073746f70206f7220756e73746f702c2077616b652c2064697370617463682c20706f7374706f6e65642c2066696e6973682c206f766572206f72206661756c742c20616e64205441534b2c2061206e756d626572206f722061206e616d652c206f72206e6f6e650a
  $OK

case stops at events of a task by its name
# Of watch, task 0 runs the ticks 0 to 2, where it sleeps till 12, and task 1 the others up to 12; it uses up its budget of 4 behind ticks 6 and
# 10. What is said stands above its digits.
file nap.s .globl _start\n_start: li a0, 12\nli a7, 2\necall\nli a0, 24\necall\nli a7, 0\necall\n
file spin.s spin: _start: j _start\n
file watch.set hyper 12\ntask 3 6 0 64 nap.rti\ntask 4 12 0 64 spin.rti\n
file twins.set hyper 12\ntask 3 12 0 64 spin.rti\ntask 3 6 0 64 nap.rti\ntask 2 12 0 64 spin.rti\n
$ rt_sim gdb watch.rts
> qSupported:multiprocess+         +$PacketSize=1000;multiprocess+;swbreak+;hwbreak+;vContSupported+;ReverseStep+;ReverseContinue+;qXfer:features:read+
# stop postponed spin
> qRcmd,73746f7020706f7374706f6e6564207370696e   +$O73746f7020706f7374706f6e656420310a
  $OK
# postponed: task 1
> vCont;c                          +$O706f7374706f6e65643a207461736b20310a
  $T05thread:p2.2;
> p21                              +$0700000000000000
# unstop postponed 1
> qRcmd,756e73746f7020706f7374706f6e65642031   +$O756e73746f7020706f7374706f6e656420310a
  $OK
# stop postponed 1
> qRcmd,73746f7020706f7374706f6e65642031   +$O73746f7020706f7374706f6e656420310a
  $OK
# stop wake task0
> qRcmd,73746f702077616b65207461736b30   +$O73746f702077616b6520300a
  $OK
# unstop postponed spin
> qRcmd,756e73746f7020706f7374706f6e6564207370696e   +$O756e73746f7020706f7374706f6e656420310a
  $OK
# wake: task 0
> vCont;c                          +$O77616b653a207461736b20300a
  $T05thread:p1.1;
> p21                              +$0c00000000000000
# unstop wake task1: refused
> qRcmd,756e73746f702077616b65207461736b31   +$O72656675736564203220556e6b6e6f776e5461736b0a77616e7465643a2061207461736b2066726f6d203020746f20312c206f722061206e616d652074686174206f6e65207461736b206861730a
  $OK
# stop wake spinner: refused
> qRcmd,73746f702077616b65207370696e6e6572   +$O72656675736564203220556e6b6e6f776e5461736b0a77616e7465643a2061207461736b2066726f6d203020746f20312c206f722061206e616d652074686174206f6e65207461736b206861730a
  $OK
> bc                               +$T05replaylog:begin;thread:p1.1;
# unstop wake task0
> qRcmd,756e73746f702077616b65207461736b30   +$O756e73746f702077616b6520300a
  $OK
# at 20
> qRcmd,6174203230                 +$O61742032300a
  $OK
> vCont;c                          +$T00thread:p2.2;
$ rt_sim gdb twins.rts
> qSupported:multiprocess+         +$PacketSize=1000;multiprocess+;swbreak+;hwbreak+;vContSupported+;ReverseStep+;ReverseContinue+;qXfer:features:read+
# stop dispatch spin: refused
> qRcmd,73746f70206469737061746368207370696e   +$O72656675736564203220556e6b6e6f776e5461736b0a77616e7465643a2061207461736b2066726f6d203020746f20322c206f722061206e616d652074686174206f6e65207461736b206861730a
  $OK
# stop dispatch task1
> qRcmd,73746f70206469737061746368207461736b31   +$O73746f7020646973706174636820310a
  $OK
# dispatch: task 1
> vCont;c                          +$O64697370617463683a207461736b20310a
  $T05thread:p2.2;
> p21                              +$0c00000000000000
