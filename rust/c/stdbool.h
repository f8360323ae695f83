// In the place of a C library's header, which the toolchain has not: what the clients here need of it.
#pragma once
#define bool _Bool
#define true 1
#define false 0
