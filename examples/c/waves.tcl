# Shows what `rt_sim vcd` wrote, with names: gtkwave -S waves.tcl run.vcd
#
# Each task has a row where it ran, its mode by name (modes.names, beside this file), the part of its program, its budget as steps, and
# where it woke, was postponed and finished a job. Parts have names where the folder in which gtkwave runs has a file task0.names,
# task1.names, ..: a line for each, with its address in eight capital digits; else they are addresses.

set modes [file join [file dirname [info script]] modes.names]

# Shows a signal in a format of GTKWave's menu, by the names of a file where there is one.
proc show {signal formats names} {
    gtkwave::addSignalsFromList [list $signal]
    gtkwave::/Edit/UnHighlight_All
    gtkwave::highlightSignalsFromList [list $signal]
    foreach format $formats {
        gtkwave::/Edit/$format
    }
    if {[file exists $names]} {
        gtkwave::installFileFilter [gtkwave::setCurrentTranslateFile $names]
    }
    gtkwave::/Edit/UnHighlight_All
}

for {set index 0} {$index < [gtkwave::getNumFacs]} {incr index} {
    set signal [gtkwave::getFacName $index]
    regexp {([a-z]+[0-9]*)(\[[0-9:]*\])?$} $signal whole name
    set signals($name) $signal
}
for {set task 0} {[info exists signals(running$task)]} {incr task} {
    show $signals(running$task) {} {}
    show $signals(mode$task) Data_Format/Binary $modes
    show $signals(part$task) Data_Format/Hex task$task.names
    show $signals(c$task) {Data_Format/Decimal Data_Format/Analog/Step Insert_Analog_Height_Extension} {}
    foreach name {fresh kept postponed finish} {
        show $signals($name$task) {} {}
    }
}
gtkwave::/Time/Zoom/Zoom_Full
