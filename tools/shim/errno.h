/* What the hosts here need of errno.h, which the toolchain's compiler lacks: for x86-64. */
int *__errno_location(void);
#define errno (*__errno_location())
#define ENOENT 2
