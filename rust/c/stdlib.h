// In the place of a C library's header, which the toolchain has not: what the clients here need of it.
#pragma once
#include <stddef.h>
_Noreturn void exit(int status);
unsigned long strtoul(const char *text, char **end, int base);
