/* What the C tests need of the C library's headers, for the kit's compiler, which has none. */
#ifndef TESTS_STRING_H
#define TESTS_STRING_H
#include <stddef.h>
void *memcpy(void *to, const void *from, size_t size);
int memcmp(const void *a, const void *b, size_t size);
size_t strlen(const char *text);
char *strcpy(char *to, const char *from);
#endif
