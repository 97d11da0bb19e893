/* Refuses requests for memory: the one with the number REFUSE_AT (from 1), and with REFUSE_ON all after it. At its end the
   program appends to the file REFUSE_COUNT how many requests there were. It needs no header, so that a compiler alone makes
   a library of it, which finds what it declares here in the C library of the program:

       clang -O2 -shared -fPIC -nostdlib -fuse-ld=lld -o refuse.so refuse.c */
typedef __SIZE_TYPE__ size_t;
enum { NO_MEMORY = 12, APPENDED = 02001 | 0100 };

extern char *getenv(const char *);
extern unsigned long strtoul(const char *, char **, int);
extern void *dlsym(void *, const char *);
extern int *__errno_location(void);
extern int open(const char *, int, ...);
extern int dprintf(int, const char *, ...);
extern int close(int);

static unsigned long requests, refused_at;
static int goes_on;
static void *(*own_malloc)(size_t), *(*own_realloc)(void *, size_t), *(*own_aligned)(size_t, size_t);

static void *next_of(const char *name) { return dlsym((void *)-1L, name); }

__attribute__((constructor)) static void begin(void) {
    const char *at = getenv("REFUSE_AT");
    own_malloc = next_of("malloc");
    own_realloc = next_of("realloc");
    own_aligned = next_of("aligned_alloc");
    __atomic_store_n(&requests, 0, __ATOMIC_SEQ_CST);
    goes_on = getenv("REFUSE_ON") != 0;
    refused_at = at ? strtoul(at, 0, 10) : 0;
}

/* Tells it when the program returns from its main function; see below for another end. */
__attribute__((destructor)) static void tell(void) {
    const char *name = getenv("REFUSE_COUNT");
    unsigned long found = __atomic_load_n(&requests, __ATOMIC_SEQ_CST);
    refused_at = 0;
    int file = name ? open(name, APPENDED, 0600) : -1;
    if (file >= 0) dprintf(file, "%lu\n", found), close(file);
}

/* How the program ends: nothing that is registered for its end is called then. */
void _exit(int status) {
    void (*own_exit)(int) = next_of("_exit");
    tell();
    own_exit(status);
    __builtin_unreachable();
}

static int is_refused(void) {
    unsigned long number = __atomic_add_fetch(&requests, 1, __ATOMIC_SEQ_CST);
    if (!refused_at || (goes_on ? number < refused_at : number != refused_at)) return 0;
    *__errno_location() = NO_MEMORY;
    return 1;
}

void *malloc(size_t size) {
    if (!own_malloc) own_malloc = next_of("malloc");
    return is_refused() ? 0 : own_malloc(size);
}

void *realloc(void *old, size_t size) {
    if (!own_realloc) own_realloc = next_of("realloc");
    return is_refused() ? 0 : own_realloc(old, size);
}

void *aligned_alloc(size_t alignment, size_t size) {
    if (!own_aligned) own_aligned = next_of("aligned_alloc");
    return is_refused() ? 0 : own_aligned(alignment, size);
}
