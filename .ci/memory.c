// What is loaded before the C library (`.ci/preload`). Of the calls that CALL names it refuses the one whose number REFUSE is and as many
// after it as BEHIND says, all but `memory` with the error ERROR, and says so to descriptor 9. CALL is one of these words:
//
// - `memory`: the requests for memory; `entropy`: those for bytes at random
// - `read` and `write`: the reads of standard input, and the writes to the two other streams
// - `look`: the reads of files
// - `file`: the calls that change a file, cut it or have it kept; `half`: the same, but of a write the first half of the bytes is written
//   before it is refused
//
// If CALL is `count` it tells descriptor 9 at the end how many requests for memory there were, and of how many bytes in all.
extern void *__libc_malloc(unsigned long);
extern void *__libc_realloc(void *, unsigned long);
extern char *getenv(const char *);
extern int *__errno_location(void);
extern long syscall(long, ...);
static unsigned long wanted, behind, met, requests, bytes;
static char call;
static int error;

static unsigned long number(const char *name) {
    unsigned long value = 0;
    for (const char *digit = getenv(name); digit && *digit; digit++) value = 10 * value + (*digit - '0');
    return value;
}

__attribute__((constructor)) static void start(void) {
    const char *name = getenv("CALL");
    call = name ? *name : 0;
    error = number("ERROR");
    wanted = number("REFUSE");
    behind = number("BEHIND");
}

static char *spelled(char *end, unsigned long value) {
    do *--end = '0' + value % 10;
    while (value /= 10);
    return end;
}

static void tell(unsigned long value, const char *text, unsigned long length) {
    char digits[20], *first = spelled(digits + 20, value);
    syscall(1, 9, first, digits + 20 - first);
    syscall(1, 9, text, length);
}

// The program ends by this call.
void _exit(int status) {
    if (call == 'c') {
        tell(requests, " requests, ", 11);
        tell(bytes, " bytes\n", 7);
    }
    for (;;) syscall(231, status);
}

static int is_refused(char which) {
    if (which != call) return 0;
    unsigned long at = __atomic_add_fetch(&met, 1, __ATOMIC_SEQ_CST);
    if (at < wanted || at - wanted > behind) return 0;
    syscall(1, 9, "refused\n", 8);
    return 1;
}

static long failed(void) {
    *__errno_location() = error;
    return -1;
}

static int has_memory(unsigned long size) {
    __atomic_add_fetch(&requests, 1, __ATOMIC_SEQ_CST);
    __atomic_add_fetch(&bytes, size, __ATOMIC_SEQ_CST);
    return !is_refused('m');
}

void *malloc(unsigned long size) { return has_memory(size) ? __libc_malloc(size) : 0; }

void *realloc(void *old, unsigned long size) { return has_memory(size) ? __libc_realloc(old, size) : 0; }

int getentropy(void *bytes, unsigned long size) {
    if (is_refused('e')) return failed();
    return syscall(318, bytes, size, 0) == (long)size ? 0 : -1;
}

long read(int from, void *bytes, unsigned long size) { return is_refused(from ? 'l' : 'r') ? failed() : syscall(0, from, bytes, size); }

long pread(int from, void *bytes, unsigned long size, long at) { return is_refused('l') ? failed() : syscall(17, from, bytes, size, at); }

static int is_refused_of_file(void) { return is_refused('f') || is_refused('h'); }

long write(int to, const void *bytes, unsigned long size) {
    if (to == 1 || to == 2 ? !is_refused('w') : !is_refused_of_file()) return syscall(1, to, bytes, size);
    if (call == 'h') syscall(1, to, bytes, size / 2);
    return failed();
}

long pwrite(int to, const void *bytes, unsigned long size, long at) {
    if (!is_refused_of_file()) return syscall(18, to, bytes, size, at);
    if (call == 'h') syscall(18, to, bytes, size / 2, at);
    return failed();
}

int ftruncate(int of, long length) { return is_refused_of_file() ? failed() : syscall(77, of, length); }

int fdatasync(int of) { return is_refused_of_file() ? failed() : syscall(75, of); }

int fsync(int of) { return is_refused_of_file() ? failed() : syscall(74, of); }
