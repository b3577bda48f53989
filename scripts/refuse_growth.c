/* Refuses one request for memory of the program that it is loaded into (LD_PRELOAD).
 *
 * REFUSE_GROWTH_AT    which request is refused, from 1; 0 for none
 * REFUSE_GROWTH_REST  where it is set, each request after that one is refused too
 * REFUSE_GROWTH_FILE  a file of 8 bytes, in which the number of requests so far stands
 *
 * A request is a call of malloc or realloc in the program's own code, on any thread. What the C library asks for
 * itself, as to start a thread, is neither counted nor refused.
 */
#define _GNU_SOURCE
#include <errno.h>
#include <fcntl.h>
#include <link.h>
#include <stdatomic.h>
#include <stdint.h>
#include <stdlib.h>
#include <sys/mman.h>
#include <unistd.h>

extern void *__libc_malloc(size_t);
extern void *__libc_realloc(void *, size_t);

static uintptr_t text_begin, text_end;
static unsigned long refused;
static int is_rest_refused;
static _Atomic unsigned long *requests;

/* The first object is the program itself. */
static int find_text(struct dl_phdr_info *object, size_t size, void *data)
{
    (void)size, (void)data;
    for (int i = 0; i < object->dlpi_phnum; i++) {
        const ElfW(Phdr) *part = &object->dlpi_phdr[i];
        if (part->p_type == PT_LOAD && (part->p_flags & PF_X)) {
            text_begin = object->dlpi_addr + part->p_vaddr;
            text_end = text_begin + part->p_memsz;
        }
    }
    return 1;
}

__attribute__((constructor)) static void begin(void)
{
    const char *at = getenv("REFUSE_GROWTH_AT"), *name = getenv("REFUSE_GROWTH_FILE");
    int file = name ? open(name, O_RDWR | O_CLOEXEC) : -1;
    void *shared = MAP_FAILED;
    if (file >= 0) {
        shared = mmap(NULL, sizeof *requests, PROT_READ | PROT_WRITE, MAP_SHARED, file, 0);
        close(file);
    }
    if (!at || shared == MAP_FAILED)
        _exit(125);
    dl_iterate_phdr(find_text, NULL);
    refused = strtoul(at, NULL, 10);
    is_rest_refused = getenv("REFUSE_GROWTH_REST") != NULL;
    requests = shared;
}

static int is_refused(void *caller)
{
    uintptr_t from = (uintptr_t)caller;
    if (!requests || from < text_begin || from >= text_end)
        return 0;
    unsigned long number = atomic_fetch_add(requests, 1) + 1;
    if (!refused || number < refused || (number > refused && !is_rest_refused))
        return 0;
    errno = ENOMEM;
    return 1;
}

void *malloc(size_t size)
{
    return is_refused(__builtin_return_address(0)) ? NULL : __libc_malloc(size);
}

void *realloc(void *old, size_t size)
{
    return is_refused(__builtin_return_address(0)) ? NULL : __libc_realloc(old, size);
}
