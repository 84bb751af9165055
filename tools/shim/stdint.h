/* What the hosts here need of stdint.h, which the toolchain's compiler lacks: for x86-64. */
typedef unsigned char uint8_t;
typedef unsigned int uint32_t;
typedef unsigned long uint64_t;
#define UINT64_MAX 0xFFFFFFFFFFFFFFFFul
