// Preloaded into a program, or linked into it: refuses one allocation, or all from one on, fails one read or write, or lets each write take
// one byte. It is linked into a program that is built without proof: such a program brings an allocator of its own, `__interceptor_malloc`,
// which finds what is read or written beyond an allocation, and a preloaded `malloc` does not replace that one.
#include <errno.h>
#include <stdlib.h>
#include <sys/syscall.h>
#include <unistd.h>

extern void *__libc_malloc(size_t);
extern void *__libc_realloc(void *, size_t);
extern void *__interceptor_malloc(size_t) __attribute__((weak));
extern void *__interceptor_realloc(void *, size_t) __attribute__((weak));

static long allocations, reads, writes;
static int has_begun;

// Where it is linked into a program, the tool that builds the program runs it at once, with no environment: it waits there, so that it can
// be copied while it runs. What is allocated before this is not the program's.
__attribute__((constructor)) static void begin(void) {
    has_begun = 1;
    if (__interceptor_malloc != NULL && getenv("LINKED") == NULL)
        sleep(60);
}

// Whether this call is the one whose number the environment names.
static int is_chosen(const char *name, long *seen) {
    const char *number = getenv(name);
    *seen += 1;
    return number != NULL && *seen == atol(number);
}

// Whether this allocation is refused, as the one that is named or as one after it; it says so on standard error.
static int is_refused(void) {
    const char *first = getenv("REFUSE_FROM");
    if (!has_begun)
        return 0;
    if (!is_chosen("REFUSE_ALLOCATION", &allocations) && (first == NULL || allocations < atol(first)))
        return 0;
    errno = ENOMEM;
    syscall(SYS_write, 2, "allocation refused\n", 19);
    return 1;
}

void *malloc(size_t size) {
    if (is_refused())
        return NULL;
    return (__interceptor_malloc != NULL ? __interceptor_malloc : __libc_malloc)(size);
}

void *realloc(void *old, size_t size) {
    if (is_refused())
        return NULL;
    return (__interceptor_realloc != NULL ? __interceptor_realloc : __libc_realloc)(old, size);
}

ssize_t read(int file, void *into, size_t most) {
    if (is_chosen("FAIL_READ", &reads)) {
        errno = EIO;
        return -1;
    }
    return syscall(SYS_read, file, into, most);
}

ssize_t write(int file, const void *from, size_t count) {
    if (is_chosen("FAIL_WRITE", &writes)) {
        errno = EIO;
        return -1;
    }
    return syscall(SYS_write, file, from, getenv("SHORT_WRITES") != NULL && count > 1 ? 1 : count);
}
