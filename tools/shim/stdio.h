/* What the hosts here need of stdio.h, which the toolchain's compiler lacks: for x86-64. */
#include <stddef.h>
typedef struct shim_file FILE;
extern FILE *stderr;
int printf(const char *text, ...);
int fprintf(FILE *to, const char *text, ...);
int snprintf(char *to, size_t room, const char *text, ...);
int rename(const char *from, const char *to);
