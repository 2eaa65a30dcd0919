/* The programs' machine on a host: the C library's. */
#include "machine.h"
#include <stdio.h>

void machine_write(const char *bytes, size_t len) { fwrite(bytes, 1, len, stdout); }

size_t machine_read(const char *name, char *bytes, size_t room)
{
    FILE *file = fopen(name, "rb");
    if (!file) return 0;
    size_t len = fread(bytes, 1, room, file);
    fclose(file);
    return len;
}
