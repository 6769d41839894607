/* Makes the calls that a program makes of the C library fail by number, for `tests/faults`, which compiles it and has it loaded before
   the library (LD_PRELOAD).

   FAULT has a kind, a mode, a number and an error, as in "memory once 5 0":

   - kinds: memory (malloc, calloc, realloc and aligned blocks), read, write, thread (pthread_create);
   - modes: none; once, where the call of this number fails; from, where that one and all later ones fail;
   - the error is the number that errno gets.

   With PIECE, a number, a read or a write takes at most so many bytes. COUNTS is the path of a file that gets the number of calls of each
   kind, as four numbers of 64 bits. Only calls from the program itself count and fail, not those that the library makes. */
#define _GNU_SOURCE
#include <dlfcn.h>
#include <errno.h>
#include <fcntl.h>
#include <link.h>
#include <pthread.h>
#include <stdint.h>
#include <stdlib.h>
#include <string.h>
#include <sys/mman.h>
#include <sys/syscall.h>
#include <unistd.h>

enum kind { MEMORY, READ, WRITE, THREAD, KINDS };
enum mode { NONE, ONCE, FROM };

static const char *const kind_names[KINDS] = {"memory", "read", "write", "thread"};
static uint64_t unseen[KINDS];
static uint64_t *counts = unseen;
static enum kind failing;
static enum mode mode = NONE;
static uint64_t number;
static int error;
static size_t piece = SIZE_MAX;
static uintptr_t program_start, program_end;

void *__libc_malloc(size_t);
void *__libc_calloc(size_t, size_t);
void *__libc_realloc(void *, size_t);
void *__libc_memalign(size_t, size_t);

/* The program's own code is the first of all that is loaded. */
static int find_program(struct dl_phdr_info *info, size_t size, void *unused) {
    (void)size, (void)unused;
    for (int at = 0; at < info->dlpi_phnum; at++) {
        const ElfW(Phdr) *part = &info->dlpi_phdr[at];
        if (part->p_type == PT_LOAD && part->p_flags & PF_X) {
            program_start = info->dlpi_addr + part->p_vaddr;
            program_end = program_start + part->p_memsz;
        }
    }
    return 1;
}

static void read_fault(char *text) {
    char *kind = strtok(text, " "), *name = strtok(NULL, " "), *count = strtok(NULL, " "), *code = strtok(NULL, " ");
    for (int at = 0; at < KINDS; at++)
        if (kind && !strcmp(kind, kind_names[at]))
            failing = at;
    mode = !name ? NONE : !strcmp(name, "once") ? ONCE : !strcmp(name, "from") ? FROM : NONE;
    number = count ? strtoull(count, NULL, 10) : 0;
    error = code ? atoi(code) : 0;
}

__attribute__((constructor)) static void begin(void) {
    static char fault[100];
    const char *path = getenv("COUNTS"), *text = getenv("FAULT"), *size = getenv("PIECE");
    int file = path ? open(path, O_RDWR) : -1;
    if (file >= 0) {
        void *kept = mmap(NULL, sizeof unseen, PROT_READ | PROT_WRITE, MAP_SHARED, file, 0);
        counts = kept == MAP_FAILED ? unseen : kept;
        close(file);
    }
    if (text)
        read_fault(strncpy(fault, text, sizeof fault - 1));
    if (size)
        piece = strtoull(size, NULL, 10);
    dl_iterate_phdr(find_program, NULL);
}

/* Counts a call from an address, and tells whether it has to fail. */
static int fails(enum kind kind, void *from) {
    if ((uintptr_t)from < program_start || (uintptr_t)from >= program_end)
        return 0;
    uint64_t count = __atomic_add_fetch(&counts[kind], 1, __ATOMIC_SEQ_CST);
    if (kind != failing || mode == NONE || (mode == ONCE ? count != number : count < number))
        return 0;
    errno = error;
    return 1;
}

#define CALLER __builtin_return_address(0)

void *malloc(size_t size) { return fails(MEMORY, CALLER) ? NULL : __libc_malloc(size); }

void *calloc(size_t count, size_t size) { return fails(MEMORY, CALLER) ? NULL : __libc_calloc(count, size); }

void *realloc(void *block, size_t size) { return fails(MEMORY, CALLER) ? NULL : __libc_realloc(block, size); }

void *aligned_alloc(size_t alignment, size_t size) { return fails(MEMORY, CALLER) ? NULL : __libc_memalign(alignment, size); }

void *memalign(size_t alignment, size_t size) { return fails(MEMORY, CALLER) ? NULL : __libc_memalign(alignment, size); }

int posix_memalign(void **block, size_t alignment, size_t size) {
    void *found = fails(MEMORY, CALLER) ? NULL : __libc_memalign(alignment, size);
    if (!found)
        return ENOMEM;
    *block = found;
    return 0;
}

static ssize_t moved(enum kind kind, void *from, long call, int file, const void *bytes, size_t size) {
    return fails(kind, from) ? -1 : syscall(call, file, bytes, size < piece ? size : piece);
}

ssize_t read(int file, void *bytes, size_t size) { return moved(READ, CALLER, SYS_read, file, bytes, size); }

ssize_t __read(int file, void *bytes, size_t size) { return moved(READ, CALLER, SYS_read, file, bytes, size); }

ssize_t write(int file, const void *bytes, size_t size) { return moved(WRITE, CALLER, SYS_write, file, bytes, size); }

ssize_t __write(int file, const void *bytes, size_t size) { return moved(WRITE, CALLER, SYS_write, file, bytes, size); }

int pthread_create(pthread_t *thread, const pthread_attr_t *settings, void *(*start)(void *), void *given) {
    static int (*real)(pthread_t *, const pthread_attr_t *, void *(*)(void *), void *);
    if (!real)
        real = (int (*)(pthread_t *, const pthread_attr_t *, void *(*)(void *), void *))dlsym(RTLD_NEXT, "pthread_create");
    return fails(THREAD, CALLER) ? error : real(thread, settings, start, given);
}
