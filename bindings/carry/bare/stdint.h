/* What figures.h and ask.h need of stdint.h, for a compiler that comes without headers. */
typedef __UINT32_TYPE__ uint32_t;
typedef __UINT64_TYPE__ uint64_t;
#define UINT32_C(number) number##U
