// Output: print.c. Of printf's conversions d i u x X o c s p and %, with flags, width, precision and sizes of integers.
#ifndef LIBRARY_STDIO_H
#define LIBRARY_STDIO_H
#include <stdarg.h>
#include <stddef.h>

int printf(const char *format, ...) __attribute__((format(printf, 1, 2)));
int vprintf(const char *format, va_list arguments);
int snprintf(char *to, size_t size, const char *format, ...) __attribute__((format(printf, 3, 4)));
int vsnprintf(char *to, size_t size, const char *format, va_list arguments);
int puts(const char *text);
int putchar(int byte);

#endif
