// What is loaded before the C library (`.ci/preload`) to tell descriptor 9 what a program does with files, a line a call that
// succeeded, in order: what it opens or makes, locks, reads, writes, cuts, syncs, renames and removes; and each line that it tells on
// standard output, once the line is whole, or how many bytes it sends there that are no text. A file is called by the last part of its path, a folder `folder`; what stands after it is a
// place and a count of bytes. A sync is one whether it keeps the times too or not, and one call of no bytes is none.
extern long syscall(long, ...);
enum { READ = 0, WRITE = 1, OPEN = 2, FSTAT = 5, LSEEK = 8, PREAD = 17, PWRITE = 18, FLOCK = 73, FSYNC = 74, FDATASYNC = 75, FTRUNCATE = 77, RENAME = 82, UNLINK = 87,
       OPENAT = 257, UNLINKAT = 263 };
enum { FILES = 64, LENGTH = 32, MAKES = 0100, FOLDER = 0040000, KIND = 0170000 };
static char names[FILES][LENGTH];
static char line[512], told[512];
static unsigned long end, told_end;

static void put(const char *text, unsigned long length) {
    for (unsigned long at = 0; at < length && end < sizeof line; at++) line[end++] = text[at];
}

static void word(const char *text) {
    unsigned long length = 0;
    while (text[length]) length++;
    if (end) put(" ", 1);
    put(text, length);
}

static void number(unsigned long value) {
    char digits[20], *first = digits + sizeof digits;
    do *--first = '0' + value % 10;
    while (value /= 10);
    put(" ", 1);
    put(first, digits + sizeof digits - first);
}

static void tell(void) {
    put("\n", 1);
    syscall(WRITE, 9, line, end);
    end = 0;
}

static const char *name_of(int file) { return file >= 0 && file < FILES && names[file][0] ? names[file] : "?"; }

static const char *last_part(const char *path) {
    const char *last = path;
    for (; *path; path++)
        if (path[0] == '/' && path[1]) last = path + 1;
    return last;
}

static long one(const char *what, int file, long came) {
    if (came >= 0) word(what), word(name_of(file)), tell();
    return came;
}

static long placed(const char *what, int file, unsigned long at, long came) {
    if (came > 0) word(what), word(name_of(file)), number(at), number(came), tell();
    return came;
}

static int opened(const char *path, int flags, int file) {
    unsigned char stat[256];
    if (file < 0) return file;
    const char *name = last_part(path);
    if (!syscall(FSTAT, file, stat) && (*(unsigned *)(stat + 24) & KIND) == FOLDER) name = "folder";
    if (file < FILES) {
        int at = 0;
        for (; name[at] && at < LENGTH - 1; at++) names[file][at] = name[at];
        names[file][at] = 0;
    }
    word(flags & MAKES ? "make" : "open"), word(name), tell();
    return file;
}

int open(const char *path, int flags, unsigned mode) { return opened(path, flags, syscall(OPEN, path, flags, mode)); }

int openat(int from, const char *path, int flags, unsigned mode) { return opened(path, flags, syscall(OPENAT, from, path, flags, mode)); }

int flock(int file, int how) { return one("lock", file, syscall(FLOCK, file, how)); }

int fsync(int file) { return one("sync", file, syscall(FSYNC, file)); }

int fdatasync(int file) { return one("sync", file, syscall(FDATASYNC, file)); }

long pread(int file, void *bytes, unsigned long size, long at) { return placed("read", file, at, syscall(PREAD, file, bytes, size, at)); }

long pwrite(int file, const void *bytes, unsigned long size, long at) {
    return placed("write", file, at, syscall(PWRITE, file, bytes, size, at));
}

int ftruncate(int file, long length) {
    long came = syscall(FTRUNCATE, file, length);
    if (came >= 0) word("cut"), word(name_of(file)), number(length), tell();
    return came;
}

int rename(const char *from, const char *to) {
    long came = syscall(RENAME, from, to);
    if (came >= 0) word("rename"), word(last_part(from)), word(last_part(to)), tell();
    return came;
}

int unlink(const char *path) {
    long came = syscall(UNLINK, path);
    if (came >= 0) word("remove"), word(last_part(path)), tell();
    return came;
}

int unlinkat(int from, const char *path, int flags) {
    long came = syscall(UNLINKAT, from, path, flags);
    if (came >= 0) word("remove"), word(last_part(path)), tell();
    return came;
}

// Text is told line by line; of other bytes how many were sent.
static void tell_lines(const char *bytes, long count) {
    for (long at = 0; at < count; at++) {
        if (!bytes[at]) {
            word("send"), number(count), tell();
            return;
        }
    }
    for (long at = 0; at < count; at++) {
        if (bytes[at] == '\n') {
            word("tell "), put(told, told_end), tell();
            told_end = 0;
        } else if (told_end < sizeof told) {
            told[told_end++] = bytes[at];
        }
    }
}

// Where the next byte of the file is read or written.
static unsigned long place_of(int file) { return syscall(LSEEK, file, 0, 1); }

long write(int to, const void *bytes, unsigned long size) {
    unsigned long at = to > 2 ? place_of(to) : 0;
    long came = syscall(WRITE, to, bytes, size);
    if (to == 1) tell_lines(bytes, came);
    return to > 2 ? placed("write", to, at, came) : came;
}

long read(int from, void *bytes, unsigned long size) {
    unsigned long at = from > 2 ? place_of(from) : 0;
    long came = syscall(READ, from, bytes, size);
    return from > 2 ? placed("read", from, at, came) : came;
}
