/* Stands for libevent's own header of this name: memory comes from the C library. */
#include <stdlib.h>

#define mm_realloc realloc
#define mm_free free
