/* What mpt.h needs of the C library, where there is none. */
typedef __SIZE_TYPE__ size_t;
#define NULL ((void *)0)
