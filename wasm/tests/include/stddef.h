/* What the C of tests takes of this header, for a compiler that has no headers. */
typedef __SIZE_TYPE__ size_t;
#define NULL ((void *)0)
