// In the place of a C library's header, which the toolchain has not: what the clients here need of it.
#pragma once
#include <stddef.h>
int strcmp(const char *one, const char *other);
