# Admission of sets, worked out by hand.

# no bytes
file none.s _start:\n

case a full set
file in.set hyper 12\ntask 1 2 0 64 none.rti\ntask 1 3 0 64 none.rti\ntask 1 6 0 64 none.rti\n
$ rt_sim check in.rts
  admitted 12 of 12

case why sets ask for too much
file 0.set hyper 12\ntask 2 3 0 64 none.rti\ntask 2 4 0 64 none.rti\n
$ rt_sim check 0.rts
  task 0 weight 8
  task 1 weight 6
  breach task 1 c 2 d 12 tick 12
! rt_sim: set: Overload total 14 hyper 12
!   rt_sim help Overload
? 1
file 1.set hyper 12\ntask 3 3 0 64 none.rti\ntask 1 12 0 64 none.rti\n
$ rt_sim check 1.rts
  task 0 weight 12
  task 1 weight 1
  breach task 1 c 1 d 12 tick 12
! rt_sim: set: Overload total 13 hyper 12
!   rt_sim help Overload
? 1
# task 0 has the ticks 0, 1, 3 and 4, each with a deadline of its own, and task 1 those at 2 and 5
file 2.set hyper 6\ntask 1 1 0 64 none.rti\ntask 1 2 0 64 none.rti\n
$ rt_sim check 2.rts
  task 0 weight 6
  task 1 weight 3
  breach task 0 c 1 d 5 tick 6
! rt_sim: set: Overload total 9 hyper 6
!   rt_sim help Overload
? 1

case other sets have no reasons
file 0.rts RTS1\x0c\0\0\0\0\0\0\0
file 2.set hyper 0\ntask 2 3 0 64 none.rti\ntask 2 4 0 64 none.rti\n
file 3.set hyper 4194305\ntask 2 3 0 64 none.rti\ntask 2 4 0 64 none.rti\n
file 4.set hyper 12\ntask 2 3 0 64 none.rti\ntask 0 4 0 64 none.rti\n
file 5.set hyper 12\ntask 2 3 0 64 none.rti\ntask 5 4 0 64 none.rti\n
file 6.set hyper 12\ntask 2 3 0 64 none.rti\ntask 2 5 0 64 none.rti\n
$ (echo hyper 64; yes task 1 64 0 64 none.rti | head -65) > 1.set; rt_sim pack 1.set 1.rts
$ for it in 0 1 2 3 4 5 6; do rt_sim check $it.rts 2> said; sed -n 1p said; done
  rt_sim: set: NoTasks
  rt_sim: set: TooMany
  rt_sim: set: BadHyper
  rt_sim: set: BadHyper
  rt_sim: set: ZeroBudget task 1
  rt_sim: set: BudgetOverPeriod task 1
  rt_sim: set: NotDivisor task 1

case what is no set
file longer.rts RTS1\x0c\0\0\0\x01\0\0\0\x01\0\0\0\x02\0\0\0\0\0\0\0@\0\0\0\x10\0\0\0RTI1\0\0\0\x80\0\0\0\0\0\0\0\0\0
file short.rts RTS1\x0c\0\0\0\0
file object.rts RTI1
$ for it in longer short object; do rt_sim check $it.rts 2> said; sed -n 1,2p said; done
  rt_sim: image: Trailing
    longer.rts: bytes follow the last field: make it again
  rt_sim: image: Truncated
    short.rts: the file ends within a field: make it again
  rt_sim: image: BadMagic
    object.rts: this is an object, wanted a system: a set file for rt_sim pack names it

case the first task that misses a deadline
# Each row has a hyperperiod and the budgets and periods of tasks, and what is printed of the breach, if there is one.
file breach.sh
  # the breach of such a set
  (echo hyper $1; shift; for it; do echo task ${it%/*} ${it#*/} ${start:-0} 64 none.rti; done) > in.set
  rt_sim pack in.set in.rts 2> noted && rt_sim check in.rts 2> said | sed -n 's/^breach task //p'
file rows
  12 2/3 2/4: 1 c 2 d 12 tick 12
  12 3/3 1/12: 1 c 1 d 12 tick 12
  12 12/12 1/12: 1 c 1 d 12 tick 12
  12 1/12 12/12: 1 c 1 d 12 tick 12
  1 1/1 1/1: 1 c 1 d 1 tick 1
  4 4/4 4/4 4/4: 1 c 4 d 4 tick 4
  4 1/2 3/4 3/4: 1 c 1 d 4 tick 4
  12 1/2 1/3 1/6 1/12: 3 c 1 d 12 tick 12
  4194304 1/2 2097153/4194304: 1 c 1 d 4194304 tick 4194304
  12 1/2 1/3 1/6:
  0 2/3 2/4:
  4194316 2/3 2/4:
  12 12/12 0/3 1/1:
  12 12/12 4/3:
  12 12/12 1/5:
$ while IFS=: read -r set wanted; do said=$(bash breach.sh $set); [ "$said" = "${wanted# }" ] || echo "$set: $said"; done < rows
$ start=7 bash breach.sh 12 2/3 2/4
  1 c 2 d 12 tick 12
# the greatest sets: 64 tasks
$ for it in 1/32 1/1 4194304/4194304; do bash breach.sh 4194304 $(yes $it | sed 64q); done
  0 c 1 d 2097184 tick 4194304
  0 c 1 d 65537 tick 4194304
  1 c 4194304 d 4194304 tick 4194304
$ bash breach.sh 64 $(yes 2/64 | sed 65q)
