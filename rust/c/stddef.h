// In the place of a C library's header, which the toolchain has not: what the clients here need of it.
#pragma once
typedef __SIZE_TYPE__ size_t;
typedef __PTRDIFF_TYPE__ ptrdiff_t;
#define offsetof(type, field) __builtin_offsetof(type, field)
#define NULL ((void *)0)
