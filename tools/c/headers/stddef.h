/* What this project uses of <stddef.h>, for the kit's clang, which comes without headers. */
#ifndef STDDEF_H
#define STDDEF_H
typedef __SIZE_TYPE__ size_t;
#define NULL ((void *)0)
#endif
