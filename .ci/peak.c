/* An allocator that counts the memory in use. At the end of the program it writes the most that there was, in octets,
   as a line `peak N` on standard error. It is loaded before the C library (LD_PRELOAD) into a program that allocates
   in one thread. If the program starts a process, the most of that one counts too. */
#include <malloc.h>
#include <stdio.h>
#include <stdlib.h>
#include <sys/mman.h>
#include <sys/syscall.h>
#include <unistd.h>

extern void *__libc_malloc(size_t size);
extern void *__libc_calloc(size_t count, size_t size);
extern void *__libc_realloc(void *block, size_t size);
extern void *__libc_memalign(size_t align, size_t size);
extern void __libc_free(void *block);

static size_t in_use;
static size_t *most;
static pid_t first;

__attribute__((constructor)) static void begin(void)
{
    void *page = mmap(NULL, sizeof *most, PROT_READ | PROT_WRITE, MAP_SHARED | MAP_ANONYMOUS, -1, 0);
    if (page == MAP_FAILED) _exit(1);
    most = page;
    first = getpid();
}

__attribute__((destructor)) static void end(void)
{
    if (getpid() == first) dprintf(2, "peak %zu\n", *most);
    first = 0;
}

/* A program with threads ends so, and runs no destructor. */
void _exit(int status)
{
    end();
    for (;;) syscall(SYS_exit_group, status);
}

static void *counted(void *block)
{
    if (block) in_use += malloc_usable_size(block);
    if (most && in_use > *most) *most = in_use;
    return block;
}

void *malloc(size_t size) { return counted(__libc_malloc(size)); }
void *calloc(size_t count, size_t size) { return counted(__libc_calloc(count, size)); }
void *aligned_alloc(size_t align, size_t size) { return counted(__libc_memalign(align, size)); }

void *realloc(void *block, size_t size)
{
    size_t before = block ? malloc_usable_size(block) : 0;
    void *made = __libc_realloc(block, size);
    if (made || size == 0) in_use -= before;
    return counted(made);
}

void free(void *block)
{
    if (block) in_use -= malloc_usable_size(block);
    __libc_free(block);
}
