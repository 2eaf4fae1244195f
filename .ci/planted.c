// What the planted changes of `.ci/different` ask: which of them is made (PLANTED), and which threads wait for each other (MEET).
extern char *getenv(const char *);
extern int nanosleep(const long *, long *);
extern long write(int, const void *, unsigned long);
extern void _exit(int);
static unsigned long workers, pieces;

static unsigned long number(const char *name) {
    unsigned long value = 0;
    for (const char *digit = getenv(name); digit && *digit; digit++) value = 10 * value + (*digit - '0');
    return value;
}

// Waits until there are so many; for half a minute, and then the program ends with status 8.
static void await(unsigned long *count, unsigned long wanted, const char *text, unsigned long length) {
    static const long millisecond[2] = {0, 1000000};
    for (long left = 30000; __atomic_load_n(count, __ATOMIC_SEQ_CST) < wanted; left--) {
        if (!left) {
            write(2, text, length);
            _exit(8);
        }
        nanosleep(millisecond, 0);
    }
}

unsigned long planted_change(void) { return number("PLANTED"); }

// A worker has a job, and waits until four have one.
void planted_job(void) {
    if (number("MEET") != 1) return;
    __atomic_add_fetch(&workers, 1, __ATOMIC_SEQ_CST);
    await(&workers, 4, "no four workers have a job\n", 27);
}

// The wire sent a piece.
void planted_piece(void) { __atomic_add_fetch(&pieces, 1, __ATOMIC_SEQ_CST); }

// A session committed a transaction, and waits until the wire sent a piece.
void planted_commit(void) {
    if (number("MEET") == 2) await(&pieces, 1, "the wire waits for the sessions\n", 32);
}
