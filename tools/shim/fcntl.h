/* What the hosts here need of fcntl.h, which the toolchain's compiler lacks: for x86-64. */
#define O_RDWR 2
#define O_CREAT 0100
#define O_TRUNC 01000
int open(const char *path, int how, ...);
