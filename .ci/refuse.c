// A library that is loaded before a program, and refuses it the allocation of one number, counted from 1: that which the word
// REFUSE of the environment says. It notes the refusal on standard error. Allocations are those of the C library's heap.
typedef unsigned long size;

extern void *__libc_malloc(size bytes);
extern void *__libc_realloc(void *block, size bytes);
extern char *getenv(const char *name);
extern long atol(const char *digits);
extern long write(int file, const void *bytes, size count);

static long left;

__attribute__((constructor)) static void start(void) {
    const char *digits = getenv("REFUSE");
    left = digits ? atol(digits) : 0;
}

// Whether this allocation is the one. Threads count together.
static int is_refused(void) {
    static const char note[] = "refused\n";
    if (__atomic_load_n(&left, __ATOMIC_RELAXED) <= 0 || __atomic_sub_fetch(&left, 1, __ATOMIC_RELAXED) != 0)
        return 0;
    return write(2, note, sizeof note - 1) > 0;
}

void *malloc(size bytes) {
    return is_refused() ? 0 : __libc_malloc(bytes);
}

void *realloc(void *block, size bytes) {
    return is_refused() ? 0 : __libc_realloc(block, bytes);
}
