/* What the C of tests takes of this header, for a compiler that has no headers. */
#define memcpy __builtin_memcpy
#define memset __builtin_memset
