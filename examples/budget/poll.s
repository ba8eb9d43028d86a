# Waits for nothing, and yields all the while.
_start: li   a7, 3              # call 3: yield
again:  ecall
        j    again
