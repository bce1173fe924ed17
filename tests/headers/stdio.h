/* What the C tests need of the C library's headers, for the kit's compiler, which has none. */
#ifndef TESTS_STDIO_H
#define TESTS_STDIO_H
int printf(const char *format, ...);
int sprintf(char *to, const char *format, ...);
#endif
