/* What the hosts here need of inttypes.h, which the toolchain's compiler lacks: for x86-64. */
#include <stdint.h>
#define PRIu64 "lu"
