/* What include/holzmotte.h needs of it, for a program that has no C library. */
typedef __SIZE_TYPE__ size_t;
