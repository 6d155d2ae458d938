/*
 * Loaded before a program, this answers its request number REFUSE for memory with none, or its request number
 * REFUSE_THREAD for a thread with EAGAIN, and then writes a byte to descriptor 9. With REFUSE_COUNT so many requests for
 * memory are refused, from that number on. Of memory only requests of the program itself count, from 1, whichever thread
 * makes them, and not those that the C library makes for it; with REFUSE_ONCE only those that are made once a file of that
 * path is there. For each thread that is made a byte is written to descriptor 8.
 */
#define _GNU_SOURCE
#include <dlfcn.h>
#include <errno.h>
#include <link.h>
#include <pthread.h>
#include <stdatomic.h>
#include <stddef.h>
#include <stdint.h>
#include <stdlib.h>
#include <unistd.h>

void *__libc_malloc(size_t);
void *__libc_calloc(size_t, size_t);
void *__libc_realloc(void *, size_t);
void *__libc_memalign(size_t, size_t);

typedef int make_thread(pthread_t *, const pthread_attr_t *, void *(*)(void *), void *);

static uintptr_t first, last;
static unsigned long refuse, refuse_count, refuse_thread;
static const char *once;
static atomic_ulong asked, threads_asked;

/* The first of the loaded files is the program. */
static int find_program(struct dl_phdr_info *file, size_t size, void *unused)
{
    (void)size, (void)unused;
    for (int i = 0; i < file->dlpi_phnum; i++) {
        uintptr_t at = file->dlpi_addr + file->dlpi_phdr[i].p_vaddr;
        if (file->dlpi_phdr[i].p_type == PT_LOAD && file->dlpi_phdr[i].p_flags & PF_X) {
            first = at;
            last = at + file->dlpi_phdr[i].p_memsz;
        }
    }
    return 1;
}

static unsigned long number_in(const char *name, unsigned long otherwise)
{
    const char *number = getenv(name);
    return number ? strtoul(number, NULL, 10) : otherwise;
}

__attribute__((constructor)) static void start(void)
{
    refuse = number_in("REFUSE", 0);
    refuse_count = number_in("REFUSE_COUNT", 1);
    refuse_thread = number_in("REFUSE_THREAD", 0);
    once = getenv("REFUSE_ONCE");
    dl_iterate_phdr(find_program, NULL);
}

static void note_refusal(void)
{
    if (write(9, "!", 1) != 1)
        abort();
}

/* Whether requests count by now. */
static int has_begun(void)
{
    int before = errno, is_there = !once || access(once, F_OK) == 0;
    errno = before;
    return is_there;
}

static int is_refused(void *caller)
{
    if ((uintptr_t)caller < first || (uintptr_t)caller >= last || !has_begun())
        return 0;
    unsigned long number = ++asked;
    if (refuse == 0 || number < refuse || number - refuse >= refuse_count)
        return 0;
    note_refusal();
    errno = ENOMEM;
    return 1;
}

#define REFUSED is_refused(__builtin_return_address(0))

void *malloc(size_t n)
{
    return REFUSED ? NULL : __libc_malloc(n);
}
void *calloc(size_t n, size_t m)
{
    return REFUSED ? NULL : __libc_calloc(n, m);
}
void *realloc(void *p, size_t n)
{
    return REFUSED ? NULL : __libc_realloc(p, n);
}
void *aligned_alloc(size_t a, size_t n)
{
    return REFUSED ? NULL : __libc_memalign(a, n);
}

int posix_memalign(void **p, size_t a, size_t n)
{
    void *made = REFUSED ? NULL : __libc_memalign(a, n);
    if (made)
        *p = made;
    return made ? 0 : ENOMEM;
}

int pthread_create(pthread_t *thread, const pthread_attr_t *attributes, void *(*run)(void *), void *argument)
{
    static make_thread *make;
    if (!make)
        *(void **)&make = dlsym(RTLD_NEXT, "pthread_create");
    if (++threads_asked == refuse_thread) {
        note_refusal();
        return EAGAIN;
    }
    int status = make(thread, attributes, run, argument);
    if (!status && write(8, "!", 1) != 1)
        abort();
    return status;
}
