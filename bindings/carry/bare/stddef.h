/* What figures.h needs of stddef.h, for a compiler that comes without headers. */
typedef __SIZE_TYPE__ size_t;
