// What C++ asks for beside a C library: Debian has no libstdc++ for RV32I.
#include <stddef.h>
#include <stdlib.h>

extern "C" {
void *__dso_handle;
void __cxa_pure_virtual() { abort(); }
}

void *operator new(size_t size)
{
    void *room = malloc(size);
    if (!room)
        abort();
    return room;
}
void *operator new[](size_t size) { return operator new(size); }
void operator delete(void *room) noexcept { free(room); }
void operator delete[](void *room) noexcept { free(room); }
void operator delete(void *room, size_t) noexcept { free(room); }
void operator delete[](void *room, size_t) noexcept { free(room); }
