# gdb for `rt_sim gdb`: settings, and a command that connects. docs/GDB.md says why.
set architecture riscv:rv32
set schedule-multiple on
set breakpoint always-inserted on
set stack-cache off
set code-cache off
set remotetimeout 30
# a step is one packet; before `bs` gdb then names the task only if it has just read its memory
set osabi none
define hook-reverse-stepi
    set $naphluy = *(char *) $pc
end
define hook-reverse-nexti
    set $naphluy = *(char *) $pc
end
define hook-reverse-step
    set $naphluy = *(char *) $pc
end
define hook-reverse-next
    set $naphluy = *(char *) $pc
end
define hook-reverse-finish
    set $naphluy = *(char *) $pc
end

python
import os

class Naphluy(gdb.Command):
    """naphluy SYS ELF..: debug the system or set file SYS, with the ELF file of each task in order.

Give - for a task without one. rt_sim must be on the path."""

    def __init__(self):
        super().__init__("naphluy", gdb.COMMAND_RUNNING, gdb.COMPLETE_FILENAME)

    def invoke(self, words, from_tty):
        system, *programs = gdb.string_to_argv(words) or [""]
        if not system:
            raise gdb.GdbError("naphluy SYS ELF..: the system or set file is missing")
        for path in [system, *(it for it in programs if it != "-")]:
            if not os.path.isfile(path):
                raise gdb.GdbError(f"naphluy: no such file: {path}")
        for number, path in enumerate(programs):
            if path == "-":
                if number:
                    gdb.execute("add-inferior", to_string=True)
                continue
            gdb.execute(f'{"add-inferior -exec" if number else "file"} "{path}"', to_string=True)
            gdb.execute(f'directory "{os.path.dirname(os.path.abspath(path))}"', to_string=True)
        gdb.execute(f"target remote | rt_sim gdb '{system}'")
        # gdb 13 would wait for ever where a task other than the first goes on first; at tick 0 this answers at once, and heals it
        gdb.execute("reverse-continue", to_string=True)
        shown = gdb.selected_thread()
        for inferior in gdb.inferiors():
            if inferior.threads():
                inferior.threads()[0].switch()
                gdb.execute("unset tdesc filename", to_string=True)
        shown.switch()

Naphluy()
end
