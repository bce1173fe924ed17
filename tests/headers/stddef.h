/* What the C tests need of the C library's headers, for the kit's compiler, which has none. */
#ifndef TESTS_STDDEF_H
#define TESTS_STDDEF_H
typedef __SIZE_TYPE__ size_t;
#define NULL ((void *)0)
#define offsetof(type, member) __builtin_offsetof(type, member)
#endif
