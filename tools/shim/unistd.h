/* What the hosts here need of unistd.h, which the toolchain's compiler lacks: for x86-64. */
#include <stddef.h>
typedef long ssize_t;
typedef long off_t;
#define SEEK_END 2
off_t lseek(int file, off_t by, int from);
ssize_t pread(int file, void *to, size_t count, off_t at);
ssize_t pwrite(int file, const void *from, size_t count, off_t at);
int ftruncate(int file, off_t length);
int fsync(int file);
int close(int file);
