/* What the programs of this folder need of a machine: text out. main's answer is the exit status. */
#ifndef MACHINE_H
#define MACHINE_H
#include <stddef.h>
#include <stdint.h>
void put(const void *bytes, size_t length);
void put_text(const char *text);
void put_number(int32_t number);
void put_hex(uint32_t number);
#endif
