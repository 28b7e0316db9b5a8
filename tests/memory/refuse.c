// Refuses a program memory: its request number REFUSE_AT behind the begin of main, counted from 1, and where REFUSE_ALL is set each one behind it too. Where it
// comes to that one it says so in the file REFUSE_NOTE, and as the program ends how many there were. Loaded before the C library, for one program alone.
#define _GNU_SOURCE
#include <dlfcn.h>
#include <errno.h>
#include <fcntl.h>
#include <stdio.h>
#include <stdlib.h>
#include <string.h>
#include <sys/mman.h>
#include <sys/syscall.h>
#include <unistd.h>

extern void *__libc_malloc(size_t), *__libc_calloc(size_t, size_t), *__libc_realloc(void *, size_t), *__libc_memalign(size_t, size_t);

// What gives memory in truth: the C library, or the checks that the program was built with.
static void *(*give)(size_t) = __libc_malloc;
static void *(*give_cleared)(size_t, size_t) = __libc_calloc;
static void *(*give_again)(void *, size_t) = __libc_realloc;
static void *(*give_aligned)(size_t, size_t) = __libc_memalign;

static long at, count;
static int all, counts, note = -1;

static void say(const char *what, long number) {
    char text[64];
    int length = snprintf(text, sizeof text, "%s %ld\n", what, number);
    if (write(note, text, (size_t)length) != length)
        _exit(99);
}

static int refused(void) {
    if (!counts)
        return 0;
    long number = __atomic_add_fetch(&count, 1, __ATOMIC_SEQ_CST);
    if (number == at)
        say("refused", number);
    if (number != at && (!all || number < at))
        return 0;
    errno = ENOMEM;
    return 1;
}

// These have names of their own, since that of the C library may be the program's.
static void *asked(size_t size) { return refused() ? NULL : give(size); }
static void *asked_cleared(size_t many, size_t size) { return refused() ? NULL : give_cleared(many, size); }
static void *asked_again(void *old, size_t size) { return refused() ? NULL : give_again(old, size); }
static void *asked_aligned(size_t to, size_t size) { return refused() ? NULL : give_aligned(to, size); }

void *malloc(size_t size) { return asked(size); }
void *calloc(size_t many, size_t size) { return asked_cleared(many, size); }
void *realloc(void *old, size_t size) { return asked_again(old, size); }
void *aligned_alloc(size_t to, size_t size) { return asked_aligned(to, size); }
void *memalign(size_t to, size_t size) { return asked_aligned(to, size); }

int posix_memalign(void **place, size_t to, size_t size) {
    void *given = asked_aligned(to, size);
    if (given)
        *place = given;
    return given ? 0 : ENOMEM;
}

#ifdef __x86_64__
// A program that is built with checks has a malloc of its own, which comes before this one: a jump to that of the checks. It is made a jump to this one, by way of
// a page that is near enough.
static unsigned char *page;
static size_t used;

static void *near_page(unsigned char *place) {
    for (unsigned long away = 1 << 24; away < 1 << 30; away += 1 << 24) {
        unsigned long wish = ((unsigned long)place - away) & ~4095UL;
        long got = syscall(SYS_mmap, wish, 4096, PROT_READ | PROT_WRITE | PROT_EXEC, MAP_PRIVATE | MAP_ANONYMOUS | MAP_FIXED_NOREPLACE, -1, 0);
        if (got == (long)wish)
            return (void *)got;
    }
    _exit(98);
}

static void redirect(const char *name, void *mine, void **truth) {
    unsigned char *jump = dlsym(RTLD_DEFAULT, name);
    if (!jump || jump == mine || *jump != 0xe9)
        return;
    int distance;
    memcpy(&distance, jump + 1, 4);
    *truth = jump + 5 + distance;
    if (!page)
        page = near_page(jump);
    unsigned char *step = page + used;
    used += 16;
    memcpy(step, "\xff\x25\0\0\0", 6);
    memcpy(step + 6, &mine, 8);
    distance = (int)(step - jump - 5);
    unsigned long first = (unsigned long)jump & ~4095UL;
    if (syscall(SYS_mprotect, first, 8192, PROT_READ | PROT_WRITE | PROT_EXEC))
        _exit(98);
    memcpy(jump + 1, &distance, 4);
}

static void redirect_all(void) {
    redirect("malloc", asked, (void **)&give);
    redirect("calloc", asked_cleared, (void **)&give_cleared);
    redirect("realloc", asked_again, (void **)&give_again);
    redirect("aligned_alloc", asked_aligned, (void **)&give_aligned);
}
#else
static void redirect_all(void) {}
#endif

__attribute__((constructor)) static void begin(void) {
    const char *file = getenv("REFUSE_NOTE"), *number = getenv("REFUSE_AT");
    note = file ? open(file, O_WRONLY | O_CREAT | O_APPEND | O_CLOEXEC, 0644) : -1;
    at = number ? atol(number) : 0;
    all = getenv("REFUSE_ALL") != NULL;
    // What the program starts has all the memory that it asks for.
    unsetenv("LD_PRELOAD");
    redirect_all();
}

__attribute__((destructor)) static void end(void) {
    counts = 0;
    if (note >= 0)
        say("requests", count);
}

static int (*real_main)(int, char **, char **);

static int counted_main(int words, char **word, char **environment) {
    counts = note >= 0;
    int status = real_main(words, word, environment);
    counts = 0;
    return status;
}

typedef int start(int (*)(int, char **, char **), int, char **, void (*)(void), void (*)(void), void (*)(void), void *);

int __libc_start_main(int (*main)(int, char **, char **), int words, char **word, void (*init)(void), void (*fini)(void), void (*last)(void), void *stack) {
    start *truth = (start *)dlsym(RTLD_NEXT, "__libc_start_main");
    real_main = main;
    return truth(counted_main, words, word, init, fini, last, stack);
}
