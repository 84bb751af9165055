/* What the hosts here need of stddef.h, which the toolchain's compiler lacks: for x86-64. */
typedef unsigned long size_t;
typedef long ptrdiff_t;
#define NULL ((void *)0)
