/* The few functions of the C library that the tests call, so that they build without a C library's headers too. */
#ifndef TESTS_LIBC_H
#define TESTS_LIBC_H

#include <stddef.h>

int printf(const char *format, ...);
int memcmp(const void *a, const void *b, size_t n);
void *memset(void *p, int byte, size_t n);
void *memcpy(void *to, const void *from, size_t n);

#endif
