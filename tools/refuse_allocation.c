/* Put before the C library by LD_PRELOAD: a program that the kit has linked is refused memory. An allocation is a call of rattle_alloc or rattle_realloc, by
   which all code of Rattle takes memory; both are led here, for x86-64. The file of the name in REFUSE_COUNTS, 32 bytes at first 0, is shared with whoever started
   the program, and has four numbers: how many were asked for, how many were refused, and the first and the last that find no memory (1 is the first of all). All
   stay 0 where the program has no such functions. REFUSE sets the last two at the start: to the number that it has, or by 5.. to the fifth and all behind it.
   They may be changed while the program goes, and so may the first, from which the next ones are counted. */
#define _GNU_SOURCE
#include <elf.h>
#include <fcntl.h>
#include <stdatomic.h>
#include <stdint.h>
#include <stdlib.h>
#include <string.h>
#include <sys/auxv.h>
#include <sys/mman.h>
#include <sys/stat.h>
#include <unistd.h>

/* What both functions return. */
struct given {
    uint64_t is_given;
    void *place;
};

static struct {
    atomic_long asked, refused, first, last;
} *counts;

/* The program's own, where an address sanitizer is linked into it. */
static void *(*own_malloc)(size_t) = malloc;
static void *(*own_realloc)(void *, size_t) = realloc;

static int is_refused(void) {
    long number = atomic_fetch_add(&counts->asked, 1) + 1;
    if (number < atomic_load(&counts->first) || number > atomic_load(&counts->last)) {
        return 0;
    }
    atomic_fetch_add(&counts->refused, 1);
    return 1;
}

static struct given given(void *place) {
    static char nothing;
    return (struct given){place != NULL, place ? place : &nothing};
}

static struct given alloc(size_t size, size_t alignment) { return given(is_refused() ? NULL : own_malloc(size ? size : alignment)); }

static struct given again(void *old, size_t kept, size_t size, size_t alignment) {
    (void)kept;
    return given(is_refused() ? NULL : own_realloc(old, size ? size : alignment));
}

/* Puts a jump to a function at the beginning of another. */
static void lead(unsigned char *from, uintptr_t to) {
    unsigned char jump[] = {0x48, 0xb8, 0, 0, 0, 0, 0, 0, 0, 0, 0xff, 0xe0}; /* mov rax, to; jmp rax */
    uintptr_t page = (uintptr_t)from & ~(uintptr_t)4095, end = (uintptr_t)from + sizeof jump;
    memcpy(jump + 2, &to, sizeof to);
    if (mprotect((void *)page, end - page, PROT_READ | PROT_WRITE | PROT_EXEC) == 0) {
        memcpy(from, jump, sizeof jump);
        mprotect((void *)page, end - page, PROT_READ | PROT_EXEC);
    }
}

/* Finds the functions by the program's table of symbols. */
static void find(const char *image) {
    const Elf64_Ehdr *head = (const Elf64_Ehdr *)image;
    const Elf64_Shdr *parts = (const Elf64_Shdr *)(image + head->e_shoff);
    unsigned char *base = (unsigned char *)getauxval(AT_PHDR) - head->e_phoff, *alloc_at = NULL, *again_at = NULL;
    for (int part = 0; part < head->e_shnum; part++) {
        if (parts[part].sh_type != SHT_SYMTAB) {
            continue;
        }
        const char *names = image + parts[parts[part].sh_link].sh_offset;
        const Elf64_Sym *it = (const Elf64_Sym *)(image + parts[part].sh_offset), *end = it + parts[part].sh_size / sizeof *it;
        for (; it < end; it++) {
            const char *name = names + it->st_name;
            unsigned char *at = it->st_shndx == SHN_UNDEF ? NULL : base + it->st_value;
            if (at && strcmp(name, "rattle_alloc") == 0) {
                alloc_at = at;
            } else if (at && strcmp(name, "rattle_realloc") == 0) {
                again_at = at;
            } else if (at && strcmp(name, "malloc") == 0) {
                own_malloc = (void *(*)(size_t))(uintptr_t)at;
            } else if (at && strcmp(name, "realloc") == 0) {
                own_realloc = (void *(*)(void *, size_t))(uintptr_t)at;
            }
        }
    }
    if (alloc_at && again_at) {
        lead(alloc_at, (uintptr_t)alloc);
        lead(again_at, (uintptr_t)again);
    }
}

/* Returns a file of at least so many bytes, mapped, or NULL. */
static void *mapped(const char *path, int access, int way, size_t least) {
    struct stat it;
    int file = path ? open(path, access | O_CLOEXEC) : -1;
    if (file < 0) {
        return NULL;
    }
    size_t size = fstat(file, &it) == 0 ? (size_t)it.st_size : 0;
    void *place = size < least ? MAP_FAILED : mmap(NULL, size, access == O_RDWR ? PROT_READ | PROT_WRITE : PROT_READ, way, file, 0);
    close(file);
    return place == MAP_FAILED ? NULL : place;
}

/* Sets which allocations are refused from the start on. */
static void set(const char *number) {
    char *rest;
    long first = strtol(number, &rest, 10);
    atomic_store(&counts->first, first);
    atomic_store(&counts->last, *rest ? INT64_MAX : first);
}

__attribute__((constructor)) static void begin(void) {
    counts = mapped(getenv("REFUSE_COUNTS"), O_RDWR, MAP_SHARED, sizeof *counts);
    const char *number = getenv("REFUSE"), *image = mapped("/proc/self/exe", O_RDONLY, MAP_PRIVATE, sizeof(Elf64_Ehdr));
    if (!counts || !image) {
        return;
    }
    if (number) {
        set(number);
    }
    find(image);
}
