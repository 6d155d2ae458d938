/* The part of <stddef.h> that the library uses, since the toolchain's clang has no headers. */
#ifndef STDDEF_H
#define STDDEF_H

#define NULL ((void *)0)
typedef __SIZE_TYPE__ size_t;

#endif
