/* What the programs here need of a machine: somewhere to write, files to read, and how many instructions have gone by. */
#ifndef MACHINE_H
#define MACHINE_H

#include <stddef.h>
#include <stdint.h>

/* To standard output. */
void machine_write(const char *bytes, size_t len);

/* A file of the folder that the program is run in, as much of it as there is room for; answers how much that was, 0 where there is no such file. */
size_t machine_read(const char *name, char *bytes, size_t room);

#endif
