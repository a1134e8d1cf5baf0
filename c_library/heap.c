/* The heap of the library: what its code calls, over malloc, realloc and free. glibc's malloc aligns each block to 16
   bytes, the most that is asked. A failure is returned as `ok` false. Nothing here is proved. */
#include <stdbool.h>
#include <stddef.h>
#include <stdlib.h>

typedef struct {
    bool ok;
    void *at;
} allocated;

static _Alignas(16) char nowhere[16];

__attribute__((visibility("hidden"))) allocated rattle_alloc(size_t size, size_t align) {
    void *at = malloc(size ? size : align);
    return (allocated){at != NULL, at ? at : nowhere};
}

__attribute__((visibility("hidden"))) allocated rattle_realloc(void *old, size_t kept, size_t size, size_t align) {
    (void)kept;
    void *at = realloc(old, size ? size : align);
    return (allocated){at != NULL, at ? at : nowhere};
}

__attribute__((visibility("hidden"))) void rattle_dealloc(void *at) { free(at); }
