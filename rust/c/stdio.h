// In the place of a C library's header, which the toolchain has not: what the clients here need of it.
#pragma once
#include <stddef.h>
typedef struct FILE FILE;
extern FILE *stderr;
FILE *fopen(const char *name, const char *how);
size_t fread(void *to, size_t size, size_t count, FILE *file);
char *fgets(char *to, int room, FILE *file);
int ferror(FILE *file);
int fclose(FILE *file);
int printf(const char *form, ...) __attribute__((format(printf, 1, 2)));
int fprintf(FILE *file, const char *form, ...) __attribute__((format(printf, 2, 3)));
int sscanf(const char *text, const char *form, ...) __attribute__((format(scanf, 2, 3)));
void perror(const char *name);
