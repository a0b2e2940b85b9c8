/* Refuses a request for memory, and fails reads and writes, of the program that it is loaded into.

   It is loaded before the C library, by LD_PRELOAD, and needs no header. A program can talk to it:
   a request for a number of bytes that nothing else makes is a message, and whether it is granted
   is the answer (library.rt.txt has the other end). For the program that ONLY names, which does not
   know about it, the environment says what has to fail:

   REFUSE=N     the Nth request for memory is refused
   ONWARD=1     and so is each one after it, until no request is to be refused
   FAIL=D:K     each read or write of the descriptor D from the Kth on fails
   BYTEWISE=1   a read or a write moves at most one byte
   TELL=D       at the end the number of requests, and that of the blocks that were not freed, are
                written to the descriptor D */

typedef unsigned long size_t;
typedef long ssize_t;

extern void *dlsym(void *, const char *);
extern char *getenv(const char *);
extern long strtol(const char *, char **, int);
extern int *__errno_location(void);
extern int strcmp(const char *, const char *);
extern int dprintf(int, const char *, ...);
extern char *program_invocation_short_name;

static long requests, refused, blocks, blocks_before;
static int was_refused, is_onward;

static void *next(void **kept, const char *name) {
    if (!*kept) *kept = dlsym((void *)-1L, name); /* RTLD_NEXT */
    return *kept;
}

#define NEXT(name) ((__typeof__(&name))next(&kept_##name, #name))
static void *kept_malloc, *kept_calloc, *kept_realloc, *kept_free, *kept_read, *kept_write;

extern void *malloc(size_t);
extern void *calloc(size_t, size_t);
extern void *realloc(void *, size_t);
extern void free(void *);
extern ssize_t read(int, void *, size_t);
extern ssize_t write(int, const void *, size_t);

/* The setting in the environment, if it is meant for this program. */
static const char *setting(const char *name) {
    const char *only = getenv("ONLY");
    return only && !strcmp(only, program_invocation_short_name) ? getenv(name) : 0;
}

/* The same as a number, or -1. */
static long number_of(const char *name) {
    const char *text = setting(name);
    return text ? strtol(text, 0, 10) : -1;
}

static int is_refused(void) {
    requests++;
    if (!refused || requests < refused || (requests > refused && !is_onward)) return 0;
    was_refused = 1;
    return 1;
}

static void *granted(void *block) {
    if (block) blocks++;
    return block;
}

/* The answer to a message. */
static int is_granted(size_t message) {
    switch (message >> 56) {
    case 0x50:
        return 1;
    case 0x51:
        requests = 0;
        was_refused = 0;
        refused = message & 0xffffffff;
        return 0;
    case 0x52:
        refused = 0;
        return was_refused;
    case 0x53:
        blocks_before = blocks;
        return 0;
    default:
        return blocks == blocks_before;
    }
}

void *malloc(size_t size) {
    if (size >> 56 >= 0x50) return is_granted(size) ? granted(NEXT(malloc)(1)) : 0;
    return is_refused() ? 0 : granted(NEXT(malloc)(size));
}

void *calloc(size_t count, size_t size) {
    return is_refused() ? 0 : granted(NEXT(calloc)(count, size));
}

void *realloc(void *block, size_t size) {
    void *moved = is_refused() ? 0 : NEXT(realloc)(block, size);
    return block ? moved : granted(moved);
}

void free(void *block) {
    if (block) blocks--;
    NEXT(free)(block);
}

/* Whether this read or write of the descriptor fails, as FAIL says. */
static int fails(int descriptor) {
    static long calls;
    const char *text = setting("FAIL");
    char *colon;
    if (!text || strtol(text, &colon, 10) != descriptor) return 0;
    if (++calls < strtol(colon + 1, 0, 10)) return 0;
    *__errno_location() = 5; /* EIO */
    return 1;
}

static size_t part(size_t size) {
    return size > 1 && number_of("BYTEWISE") == 1 ? 1 : size;
}

ssize_t read(int descriptor, void *into, size_t size) {
    return fails(descriptor) ? -1 : NEXT(read)(descriptor, into, part(size));
}

ssize_t write(int descriptor, const void *from, size_t size) {
    return fails(descriptor) ? -1 : NEXT(write)(descriptor, from, part(size));
}

__attribute__((constructor)) static void begin(void) {
    long number = number_of("REFUSE");
    if (number > 0) refused = requests + number;
    is_onward = number_of("ONWARD") == 1;
}

__attribute__((destructor)) static void report(void) {
    long descriptor = number_of("TELL");
    if (descriptor >= 0) dprintf(descriptor, "%ld %ld\n", requests, blocks);
}
