# Charts of whole systems, against marks that were worked out by hand. Some say the ticks, and the current budget c and
# the deadline d that they leave. A wake at w is fresh where d * Q <= c * P + w * Q.

file marks.awk
  # the rows of a picture, a line each: its stretches and marks, with their ticks
  /^<text x="-/ { if (row) print row; row = $0; sub(/^[^>]*>/, "", row); sub(/ .*/, ":", row); task = row + 0; next }
  /^<(rect|path|line) class="[^"]*" data-task=/ {
      split($0, part, "\"")
      row = row " " part[2] " " part[6] (part[7] == " data-to=" ? " to " part[8] : "") (part[4] == task ? "," : " of another task,")
  }
  END { print row }

file holds
  # the lines of a file that stand nowhere in what is read
  text=$(cat)
  while IFS= read -r line; do [[ $text == *"$line"* ]] || echo "missing: $line"; done < "$1"
file loop.s _start: jal x0,0x80000000\n
file end.s _start: ecall\n
file until1.s _start: addi x17,x0,2\naddi x10,x0,1\naddi x11,x0,0\necall\njal x0,0x80000010\n
file until7.s _start: addi x17,x0,2\naddi x10,x0,7\naddi x11,x0,0\necall\njal x0,0x80000010\n
file until8.s _start: addi x17,x0,2\naddi x10,x0,8\naddi x11,x0,0\necall\njal x0,0x80000010\n
file until9.s _start: addi x17,x0,2\naddi x10,x0,9\naddi x11,x0,0\necall\njal x0,0x80000010\n
file until11.s _start: addi x17,x0,2\naddi x10,x0,11\naddi x11,x0,0\necall\njal x0,0x80000010\n
file yield.s _start: addi x17,x0,3\necall\n

case sleep now
# the sleep at 8 isn't to come, so task 1 goes on at 9, its last tick of budget; then both have the deadline 20. Task 0 is over its
# period from 10 on, task 1, whose second job is released at 8, from 18 on.
file in.set hyper 10\ntask 5 10 0 64 loop.rti\ntask 5 10 0 64 until8.rti\n
$ rt_sim chart in.rts --ticks 20 | awk -f marks.awk
  0: wait 5 to 10, wait over 15 to 20, run 0 to 5, run over 10 to 15, wake fresh 0, deadline 10, postponed 4, postponed 14,
  1: wait 0 to 5, wait 10 to 15, run 5 to 9, run 9 to 10, run 15 to 18, run over 18 to 20, wake fresh 0, deadline 10, sleep 8, postponed 9, postponed 19,

case tasks that are excepted
# As above, but that no job of an excepted task is over its period: its stretch isn't cut there.
file in.set hyper 10\ntask 5 10 0 64 loop.rti\ntask 5 10 0 64 until8.rti\n
$ rt_sim chart in.rts --ticks 20 --except 0 | awk -f marks.awk
  0: wait 5 to 10, wait 15 to 20, run 0 to 5, run 10 to 15, wake fresh 0, deadline 10, postponed 4, postponed 14,
  1: wait 0 to 5, wait 10 to 15, run 5 to 9, run 9 to 10, run 15 to 18, run over 18 to 20, wake fresh 0, deadline 10, sleep 8, postponed 9, postponed 19,
$ rt_sim chart in.rts --ticks 20 --except 1,0 | awk -f marks.awk
  0: wait 5 to 10, wait 15 to 20, run 0 to 5, run 10 to 15, wake fresh 0, deadline 10, postponed 4, postponed 14,
  1: wait 0 to 5, wait 10 to 15, run 5 to 9, run 9 to 10, run 15 to 20, wake fresh 0, deadline 10, sleep 8, postponed 9, postponed 19,

case sleep later
# at 9, c 1 d 10: 50 <= 10 + 45, so afresh: c 5 d 19, before task 0 with d 20; used up at 13, d 29. Task 0 is over its period from 10
# on, the second job of task 1 from 19 on.
file in.set hyper 10\ntask 5 10 0 64 loop.rti\ntask 5 10 0 64 until9.rti\n
$ rt_sim chart in.rts --ticks 20 | awk -f marks.awk
  0: wait 5 to 10, wait over 10 to 14, wait over 19 to 20, run 0 to 5, run over 14 to 19, wake fresh 0, deadline 10, postponed 4, postponed 18,
  1: wait 0 to 5, wait 14 to 19, run 5 to 9, run 9 to 14, run over 19 to 20, wake fresh 0, deadline 10, sleep 8, wake fresh 9, deadline 19, postponed 13,

case yield at two
# the yield leaves c 5 d 20, and then a word of zeros is illegal
file in.set hyper 10\ntask 5 10 0 64 yield.rti\n
$ rt_sim chart in.rts --ticks 21 | awk -f marks.awk
  0: run 0 to 3, wake fresh 0, deadline 10, postponed 1, deadline 20, yield 1, fault 2,

case a sleep without an end
# it sleeps until 2^64 - 1, with a tick of its budget left
file a.s _start: addi x17,x0,2\naddi x10,x0,-1\naddi x11,x0,-1\necall\n
file in.set hyper 10\ntask 5 10 0 64 a.rti\n
$ rt_sim chart in.rts --ticks 12 | awk -f marks.awk
  0: run 0 to 4, wake fresh 0, deadline 10, sleep 3,

case yields at each odd tick
# each odd tick yields, and so moves the deadline on by 10; those of 20 and later lie behind the picture
file a.s _start: addi x17,x0,3\necall\njal x0,0x80000004\n
file in.set hyper 10\ntask 5 10 0 64 a.rti\n
$ rt_sim chart in.rts --ticks 6 | awk -f marks.awk
  0: run 0 to 6, wake fresh 0, postponed 1, yield 1, postponed 3, yield 3, postponed 5, yield 5,

case exhausted sleeper, kept
# the sleep at 3 leaves c 4 d 20; at 7: 80 > 40 + 28, so kept; used up at 10, d 30
file in.set hyper 10\ntask 4 10 0 64 until7.rti\n
$ rt_sim chart in.rts --ticks 12 | awk -f marks.awk
  0: run 0 to 4, run 7 to 12, wake fresh 0, deadline 10, postponed 3, sleep 3, wake kept 7, postponed 10,

case deadlines from before the window
# the sleep at 3 leaves d 20; at 11: 80 <= 40 + 44, so afresh: d 21; used up at 14, 18 (d 41) and 22 (d 51). Over its period from 21 on,
# since released at 11.
file in.set hyper 10\ntask 4 10 0 64 until11.rti\n
$ rt_sim chart in.rts --ticks 10 --from 15 | awk -f marks.awk
  0: run 15 to 21, run over 21 to 25, deadline 20, deadline 21, postponed 18, postponed 22,

case within an idle stretch
# asleep from 4 to 10, and no deadline but 10
file in.set hyper 10\ntask 4 10 0 64 until11.rti\n
$ rt_sim chart in.rts --ticks 5 --from 5 | awk -f marks.awk
  0:

case two busy tasks
# the deadlines of task 0 are 3, 6 (set at 0), 9 (at 3), 12 (at 6), 15 (at 7) and 18 (at 10), those of task 1 are 4, 8 (at 2), 12 (at 5)
# and 16 (at 9); task 0 runs at 0, 3, 6, 7 and 10. Task 0 is over its period from 3 on, task 1 from 4 on.
file in.set hyper 12\ntask 1 3 0 64 loop.rti\ntask 2 4 0 64 loop.rti\n
$ rt_sim chart in.rts --ticks 12 | awk -f marks.awk
  0: wait 1 to 3, wait over 4 to 6, wait over 8 to 10, wait over 11 to 12, run 0 to 1, run over 3 to 4, run over 6 to 8, run over 10 to 11, wake fresh 0, deadline 3, postponed 0, deadline 6, postponed 3, deadline 9, postponed 6, postponed 7, postponed 10,
  1: wait 0 to 1, wait 3 to 4, wait over 6 to 8, wait over 10 to 11, run 1 to 3, run over 4 to 6, run over 8 to 10, run over 11 to 12, wake fresh 0, deadline 4, postponed 2, deadline 8, postponed 5, postponed 9,

case five ticks of two busy tasks
# cut at both ends: 4 and 8 are in it, 3 and 9 aren't. Task 0 waits since 4, task 1 since 6.
file in.set hyper 12\ntask 1 3 0 64 loop.rti\ntask 2 4 0 64 loop.rti\n
$ rt_sim chart in.rts --ticks 5 --from 4 | awk -f marks.awk
  0: wait over 4 to 6, wait over 8 to 9, run over 6 to 8, deadline 6, postponed 6, postponed 7,
  1: wait over 6 to 8, run over 4 to 6, run over 8 to 9, deadline 4, deadline 8, postponed 5,

case one tick
file in.set hyper 12\ntask 1 3 0 64 loop.rti\ntask 2 4 0 64 loop.rti\n
$ rt_sim chart in.rts --ticks 1 --from 6 | awk -f marks.awk
  0: run over 6 to 7, deadline 6, postponed 6,
  1: wait over 6 to 7,

case within a stretch
# used up at 19 and at 24
file in.set hyper 10\ntask 5 10 0 64 loop.rti\n
$ rt_sim chart in.rts --ticks 3 --from 21 | awk -f marks.awk
  0: run over 21 to 24,

case a wake that hasn't run
# at 7 task 1 has c 1 d 10: 50 > 10 + 35, so kept; but task 0 with d 10 runs, and uses its 2 ticks up
file in.set hyper 20\ntask 2 4 6 64 loop.rti\ntask 5 10 0 64 until7.rti\n
$ rt_sim chart in.rts --ticks 8 | awk -f marks.awk
  0: run 6 to 8, wake fresh 6, postponed 7,
  1: wait 7 to 8, run 0 to 4, wake fresh 0, sleep 3, wake kept 7,

case up to a wake
# the wake of tick 7 is behind it
file in.set hyper 20\ntask 2 4 6 64 loop.rti\ntask 5 10 0 64 until7.rti\n
$ rt_sim chart in.rts --ticks 7 | awk -f marks.awk
  0: run 6 to 7, wake fresh 6,
  1: run 0 to 4, wake fresh 0, sleep 3,

case a start that hasn't run
# a fresh wake at 2, while task 0 runs
file in.set hyper 10\ntask 5 10 0 64 loop.rti\ntask 5 10 2 64 loop.rti\n
$ rt_sim chart in.rts --ticks 3 --from 1 | awk -f marks.awk
  0: run 1 to 4,
  1: wait 2 to 4, wake fresh 2,

case an end
# the tick of the end uses the budget up, d 20
file in.set hyper 10\ntask 1 10 0 64 end.rti\n
$ rt_sim chart in.rts --ticks 21 | awk -f marks.awk
  0: run 0 to 1, wake fresh 0, deadline 10, postponed 0, deadline 20, end 0,

case a deadline among idle ticks
file in.set hyper 10\ntask 1 10 0 64 end.rti\n
$ rt_sim chart in.rts --ticks 3 --from 9 | awk -f marks.awk
  0: deadline 10,

case at 2^32
file in.set hyper 10\ntask 1 10 0 64 end.rti\n
$ rt_sim chart in.rts --ticks 10 --from 4294967296 | awk -f marks.awk
  0:

case three wild programs
# a jump out of RAM, a store past its end, and an illegal word, each with a budget of 2
file a.s _start: jalr x0,0(x0)\n
file b.s _start: lui x5,0x80000\nsw x1,64(x5)\n
file c.s _start: .word 0x00000000\n
file in.set hyper 12\ntask 2 12 0 64 a.rti\ntask 2 12 0 64 b.rti\ntask 2 12 0 64 c.rti\n
$ rt_sim chart in.rts --ticks 13 | awk -f marks.awk
  0: run 0 to 2, wake fresh 0, deadline 12, postponed 1, fault 1,
  1: wait 0 to 2, run 2 to 4, wake fresh 0, deadline 12, postponed 3, fault 3,
  2: wait 0 to 4, run 4 to 5, wake fresh 0, deadline 12, fault 4,

case over its period, beyond the window
# it is released at 0, where the wake sets the deadline 10, and still runs when the window ends
file in.set hyper 10\ntask 3 10 0 64 loop.rti\n
$ rt_sim chart in.rts --ticks 5 --from 8 | awk -f marks.awk
  0: run 8 to 10, run over 10 to 13, deadline 10, postponed 8, postponed 11,

case released before the window
# task 1 waits since 0 for task 0, which uses its budget up at 4
file in.set hyper 10\ntask 5 10 0 64 loop.rti\ntask 5 10 0 64 loop.rti\n
$ rt_sim chart in.rts --ticks 6 --from 2 | awk -f marks.awk
  0: wait 5 to 8, run 2 to 5, postponed 4,
  1: wait 2 to 5, run 5 to 8,

case a wait at the start
# task 1 wakes at 2 with the deadline 12, and waits for task 0 with the deadline 10, which is 20 from 5 on
file in.set hyper 10\ntask 5 10 0 64 loop.rti\ntask 5 10 2 64 loop.rti\n
$ rt_sim chart in.rts --ticks 8 | awk -f marks.awk
  0: wait 5 to 8, run 0 to 5, wake fresh 0, postponed 4,
  1: wait 2 to 5, run 5 to 8, wake fresh 2,

case a sleep in the past
# the sleep at 3 is until 1, where the second job is released: over its period from 5 on. Used up at 2 (d 8) and at 5 (d 12).
file in.set hyper 4\ntask 3 4 0 64 until1.rti\n
$ rt_sim chart in.rts --ticks 7 | awk -f marks.awk
  0: run 0 to 4, run 4 to 5, run over 5 to 7, wake fresh 0, deadline 4, postponed 2, sleep 3, postponed 5,

case sixty-four tasks
# Each task runs for one tick of 64, and then task 0 again: the marks of the last.
$ (echo hyper 64; yes task 1 64 0 64 loop.rti | head -64) > in.set; rt_sim pack in.set in.rts
$ rt_sim chart in.rts --ticks 65 | awk -f marks.awk | tail -1
  63: wait 0 to 63, wait over 64 to 65, run 63 to 64, wake fresh 0, deadline 64, postponed 63,

case deadlines that are missed
# Eleven ticks of each ten are asked for. Task 0 runs at 0 to 2, task 1 at 3 to 10: at 10, its deadline, it lacks a tick. Then the first
# tick is no longer shown; task 1 misses the deadline 20 too, which isn't its first.
file in.set hyper 10\ntask 3 10 0 64 loop.rti\ntask 8 10 0 64 loop.rti\n
$ rt_sim chart in.rts --ticks 12 --overloaded | awk -f marks.awk
  0: wait 3 to 10, wait over 10 to 11, run 0 to 3, run over 11 to 12, wake fresh 0, deadline 10, postponed 2,
  1: wait 0 to 3, wait over 11 to 12, run 3 to 10, run over 10 to 11, wake fresh 0, deadline 10, postponed 10, breach 10,
! rt_sim: not admitted: total 11 of 10; nothing is promised
$ rt_sim chart in.rts --ticks 10 --from 11 --overloaded | awk -f marks.awk
  0: wait over 14 to 21, run over 11 to 14, deadline 20, postponed 13,
  1: wait over 11 to 14, run over 14 to 21, deadline 20,
! rt_sim: not admitted: total 11 of 10; nothing is promised

case crowded rows
# 400 units have room for 50 shapes: those of 45 ticks are 1 + 45 + 4. A tick more is a mark more. Each tick uses its budget up, and is
# a mark; so are the first wake, and each tenth tick, its deadline.
file in.set hyper 10\ntask 1 10 0 64 loop.rti\n
$ rt_sim chart in.rts --ticks 45 --width 400 | grep -oF 'd="M0,28v-12l-3,4m3,-4l3,4"' | sort -u
  d="M0,28v-12l-3,4m3,-4l3,4"
$ rt_sim chart in.rts --ticks 46 --width 400 | grep -oF 'd="M0,25v-9"' | sort -u
  d="M0,25v-9"

case a compact picture
# One row of 20 units: 10 + 20 + 80 units high. Its label has 13 letters of 7 units, so it is 20 + 91 + 400 + 190 wide.
file in.set hyper 10\ntask 1 10 0 64 loop.rti\n
file parts
  viewBox="0 0 701 110"
  <g transform="translate(111,10)">
  <text x="-101" y="14">0 task0  1/10</text>
  <rect class="run" data-task="0" data-from="0" data-to="10" x="0" y="8" width="400" height="8" fill="#7aa6d8">
  <path class="wake fresh" data-task="0" data-tick="0" d="M0,8v-4" stroke="#1a7f37">
$ rt_sim chart in.rts --ticks 10 --width 400 --compact | bash holds parts

case a wide picture
# 2,001 units are wide: the label is at the right again, with room for it: 111 + 2,001 + 190 + 111.
file in.set hyper 10\ntask 1 10 0 64 loop.rti\n
file parts
  viewBox="0 0 2413 146"
  <text x="2201" y="40">0 task0  1/10</text>
  <path class="grid" d="M2001,0v56"/>
$ rt_sim chart in.rts --ticks 10 --width 2001 | bash holds parts

case bars
# Each task has 5 ticks of 10, one after the other; both are over their periods from 10 on.
file in.set hyper 10\ntask 5 10 0 64 loop.rti\ntask 5 10 0 64 loop.rti\n
file parts
  <rect class="wait" data-task="0" data-from="5" data-to="10" x="200" y="38" width="200" height="4" fill="#cbd5e1"><title>task 0 task0 waits, ticks 5 to 9; job 0, released at 0, 5 ticks so far, response 10</title></rect>
  <rect class="wait over" data-task="0" data-from="15" data-to="20" x="600" y="38" width="200" height="4" fill="url(#hatch)"><title>task 0 task0 waits, ticks 15 to 19, over the period since 10; job 0, released at 0, 10 ticks so far, response 20</title></rect>
  <rect class="run" data-task="0" data-from="0" data-to="5" x="0" y="30" width="200" height="12" fill="#7aa6d8"><title>task 0 task0, ticks 0 to 4; job 0, released at 0, 5 ticks so far, response 5</title></rect>
  <rect class="run over" data-task="0" data-from="10" data-to="15" x="400" y="30" width="200" height="12" fill="#f0a030"><title>task 0 task0, ticks 10 to 14, over the period since 10; job 0, released at 0, 10 ticks so far, response 15</title></rect>
  .over,.key-over{fill:#
  <rect class="key-wait" x="384" y="38" width="16" height="4" fill="#cbd5e1"/><text x="406" y="44">waits</text>
  <rect class="key-over" x="454" y="34" width="16" height="12" fill="#f0a030"/><text x="476" y="44">over the period (no promise)</text>
$ rt_sim chart in.rts --ticks 20 | bash holds parts

case titles of jobs
# Task 1 takes the ticks 5 to 8 for its first job, which sleeps until 8; its second job takes 9, and 15 to 19. A picture from 17 on counts the
# ticks before it.
file in.set hyper 10\ntask 5 10 0 64 loop.rti\ntask 5 10 0 64 until8.rti\n
file parts
  <title>task 1 task1 waits, ticks 0 to 4; job 0, released at 0, 0 ticks so far, response 5</title>
  <title>task 1 task1, ticks 5 to 8; job 0, released at 0, 4 ticks so far, response 9</title>
  <title>task 1 task1, ticks 9 to 9; job 1, released at 8, 1 ticks so far, response 2</title>
  <title>task 1 task1 waits, ticks 10 to 14; job 1, released at 8, 1 ticks so far, response 7</title>
  <title>task 1 task1, ticks 15 to 17; job 1, released at 8, 4 ticks so far, response 10</title>
  <title>task 1 task1, ticks 18 to 19, over the period since 18; job 1, released at 8, 6 ticks so far, response 12</title>
$ rt_sim chart in.rts --ticks 20 | bash holds parts
$ rt_sim chart in.rts --ticks 2 --from 17 | grep -oF '<title>task 1 task1, ticks 17 to 17; job 1, released at 8, 4 ticks so far, response 10</title>'
  <title>task 1 task1, ticks 17 to 17; job 1, released at 8, 4 ticks so far, response 10</title>

case shapes of a kept wake
# 20 ticks are 800 units wide: a tick begins at 40 times its number, and its middle lies 20 units further. It sleeps in tick 3 until 7,
# with c 1 and d 10: the wake is kept, since 1 * 10 + 7 * 5 is less than 10 * 5. It ends in tick 8.
file a.s _start: addi x17,x0,2\naddi x10,x0,7\naddi x11,x0,0\necall\naddi x17,x0,0\necall\n
file in.set hyper 10\ntask 5 10 0 64 a.rti\n
file parts
  <path class="sleep" data-task="0" data-tick="3" d="M140,45a3,3,0,1,0,1,0z" stroke="#1f5fa8"><title>tick 3: sleeps until 7</title></path>
  <path class="wake kept" data-task="0" data-tick="7" d="M280,28v-3m0,-3v-6l-3,4m3,-4l3,4" stroke="#9a6700"><title>tick 7: wakes with what it had</title></path>
  <path class="end" data-task="0" data-tick="8" d="M340,45h3v6h-6v-6z" fill="#222"><title>tick 8: ends</title></path>
$ rt_sim chart in.rts --ticks 20 | bash holds parts

case shapes of a yield
# It yields in tick 1, and then a word of zeros is illegal.
file in.set hyper 10\ntask 5 10 0 64 yield.rti\n
file parts
  <path class="yield" data-task="0" data-tick="1" d="M60,44l4,4l-4,4l-4,-4z"><title>tick 1: yields</title></path>
  <path class="fault" data-task="0" data-tick="2" d="M100,48l-4,-4l8,8l-4,-4l4,-4l-8,8" stroke="#c0262d" stroke-width="2.5"><title>tick 2: fault Illegal</title></path>
$ rt_sim chart in.rts --ticks 20 | bash holds parts

case lines of a kept wake, and the key of lines
# 400 ticks are 1,600 units wide: 4 for each, the middle of which lies 2 units behind its begin. A crowd from tick 100 on has marks be
# lines. The key shows each line and its colour, and what it says of it.
file a.s _start: addi x17,x0,2\naddi x10,x0,7\naddi x11,x0,0\necall\naddi x17,x0,0\necall\n
file in.set hyper 10\ntask 5 10 0 64 a.rti\ntask 1 10 100 64 loop.rti\n
file parts
  data-tick="3" d="M14,44v5" stroke="#1f5fa8"><title>tick 3: sleeps until 7</title></path>
  data-tick="7" d="M28,25v-3m0,-3v-3" stroke="#9a6700"><title>tick 7: wakes with what it had</title></path>
  data-tick="8" d="M34,45h3v6h-6v-6z" fill="#222"><title>tick 8: ends</title></path>
  <path class="key-fresh" d="M4,25v-9" stroke="#1a7f37"/>
  <path class="key-kept" d="M104,25v-3m0,-3v-3" stroke="#9a6700"/>
  <path class="key-deadline" d="M204,14v12" stroke="#57606a"/>
  <path class="key-postponed" d="M294,22v-4h1v4" fill="#bc6c00" stroke="none"/>
  <path class="key-yield" d="M424,18v5"/>
  <path class="key-sleep" d="M494,18v5" stroke="#1f5fa8"/>
  <path class="key-end" d="M4,37h3v6h-6v-6z" fill="#222"/>
  <path class="key-fault" d="M64,40l-4,-4l8,8l-4,-4l4,-4l-8,8" stroke="#c0262d" stroke-width="2.5"/>
  <path class="key-reserve" d="M124,38v5" stroke="#6e40c9"/>
  <path class="key-refused" d="M254,38v2m0,1v2" stroke="#6e40c9"/>
  <text x="12" y="24">fresh wake</text>
  <text x="114" y="24">kept wake</text>
  <text x="214" y="24">deadline</text>
  <text x="304" y="24">budget used up</text>
  <text x="434" y="24">yield</text>
  <text x="504" y="24">sleep</text>
  <text x="14" y="44">end</text>
  <text x="74" y="44">fault</text>
  <text x="134" y="44">reserve granted</text>
  <text x="264" y="44">reserve refused</text>
$ rt_sim chart in.rts --ticks 400 | bash holds parts

case lines of a yield
file in.set hyper 10\ntask 5 10 0 64 yield.rti\ntask 1 10 100 64 loop.rti\n
file parts
  data-tick="1" d="M6,44v5"><title>tick 1: yields</title></path>
  data-tick="2" d="M10,48l-4,-4l8,8l-4,-4l4,-4l-8,8" stroke="#c0262d" stroke-width="2.5"><title>tick 2: fault Illegal</title></path>
$ rt_sim chart in.rts --ticks 400 | bash holds parts

case one tick of many
# A tick of 100,000 is a sixtieth of a unit wide.
file in.set hyper 10\ntask 1 10 0 64 end.rti\n
$ rt_sim chart in.rts --ticks 100000 | grep -oF 'data-from="0" data-to="1" x="0" y="30" width="1" height="12" fill="#7aa6d8">' | sort -u
  data-from="0" data-to="1" x="0" y="30" width="1" height="12" fill="#7aa6d8">

case given up
file in.set hyper 10\ntask 5 10 0 64 yield.rti\n
$ rt_sim chart in.rts --ticks 21 | grep -oF '<title>tick 1: rest of the budget given up, deadline from 10 to 20</title>' | sort -u
  <title>tick 1: rest of the budget given up, deadline from 10 to 20</title>

case tall pictures
# 12 rows are 10 + 12 * 56 + 80 = 762 units high; 13 are 56 more, and the axis above them 24. The longest labels, as 11 task11  1/16, have 15
# letters: 20 + 105 + 800 + 190 units.
$ (echo hyper 16; yes task 1 16 0 64 loop.rti | head -12) > in.set; rt_sim pack in.set in.rts
$ rt_sim chart in.rts --ticks 20 | grep -oF 'viewBox="0 0 1115 762"' | sort -u
  viewBox="0 0 1115 762"
$ (echo hyper 16; yes task 1 16 0 64 loop.rti | head -13) > in.set; rt_sim pack in.set in.rts
file parts13
  viewBox="0 -24 1115 842"
  y="-24" width="1115" height="842" fill="#fff"
  <g transform="translate(125,-18)">
  <text x="-115" y="40">0 task0  1/16</text>
$ rt_sim chart in.rts --ticks 20 | bash holds parts13
