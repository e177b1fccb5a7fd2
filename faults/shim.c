/* Loaded before a program (LD_PRELOAD), makes calls of the system fail that the program makes: those on the file that it opens
 * to be made where there is none (`disk`), reads and writes of other files and of sockets (`stream`), or growths of memory
 * (`memory`). The environment says which: FAULT_ON one of these words, FAULT_FIRST the number of the first call, from 1 on,
 * FAULT_COUNT how many from it on (1 where it is left out), FAULT_HOW what becomes of them. FAULT_LOG names a file that gets a
 * line for each call on the file as it is made, behind a write's line its bytes, and at the end the numbers of calls. A program
 * of rows that arms the library itself does so by the sizes of two growths, which no other program asks for, whatever the
 * environment says. There is no header: it is compiled for glibc on x86-64 by itself. */

typedef unsigned long size;
typedef long count;

extern void *__libc_malloc(size);
extern void *__libc_realloc(void *, size);
extern char *getenv(const char *);
extern size strtoul(const char *, char **, int);
extern size strlen(const char *);
extern int strcmp(const char *, const char *);
extern int snprintf(char *, size, const char *, ...);
extern count syscall(long, ...);
extern int *__errno_location(void);

enum { READ = 0, WRITE = 1, PREAD = 17, PWRITE = 18, GETPID = 39, SENDTO = 44, RECVFROM = 45, KILL = 62, FSYNC = 74, OPENAT = 257,
       STATX = 332 };
enum { AT_CWD = -100, O_WRONLY = 01, O_CREAT = 0100, O_APPEND = 02000, EIO = 5, SIGSTOP = 19 };

/* FAULT_HOW: an error number; or half of the bytes, none of them, all of them inverted, half and from then on EIO, the process
 * stops itself before the call, or one byte. */
enum { HALF = 1001, NOTHING, INVERTED, HALF_THEN_EIO, STOPPED, ONE };

enum { DISK, STREAM, MEMORY, CLASSES };
static const char *const names[CLASSES] = {"disk", "stream", "memory"};
static size made[CLASSES], first, last, how;
static int chosen = CLASSES, store = -1, log = -1, ready;

static size number(const char *name, size otherwise) {
    const char *text = getenv(name);
    return text ? strtoul(text, 0, 10) : otherwise;
}

__attribute__((constructor)) static void begin(void) {
    const char *on = getenv("FAULT_ON"), *path = getenv("FAULT_LOG");
    for (int k = 0; k < CLASSES; k++)
        if (on && !strcmp(on, names[k])) chosen = k;
    first = number("FAULT_FIRST", 0);
    last = first + number("FAULT_COUNT", 1) - 1;
    how = number("FAULT_HOW", EIO);
    if (path) log = syscall(OPENAT, AT_CWD, path, O_WRONLY | O_CREAT | O_APPEND, 0600);
    ready = 1;
}

static void tell(const char *what, count at, count length, const void *bytes) {
    char line[80];
    if (log < 0) return;
    snprintf(line, sizeof line, "%s %ld %ld\n", what, at, length);
    syscall(WRITE, log, line, strlen(line));
    if (bytes) syscall(WRITE, log, bytes, length);
}

__attribute__((destructor)) static void end(void) {
    for (int k = 0; k < CLASSES; k++) tell(names[k], made[k], 0, 0);
}

/* Counts a call, and gives what is to become of it, 0 for nothing. */
static size due(int class) {
    size n = ++made[class];
    if (class != chosen || n < first || n > last) return 0;
    if (how == HALF_THEN_EIO) return n == first ? HALF : EIO;
    if (how == STOPPED) {
        syscall(KILL, syscall(GETPID), SIGSTOP);
        return 0;
    }
    return how;
}

static count failed(int error) {
    *__errno_location() = error;
    return -1;
}

/* A call that moves bytes. */
static count moved(int class, long call, long file, void *bytes, size length, long at, long more, long most) {
    size fault = due(class);
    if (fault && fault < HALF) return failed(fault);
    if (fault == NOTHING) return 0;
    size part = fault == HALF ? (length + 1) / 2 : fault == ONE && length ? 1 : length;
    count taken = syscall(call, file, bytes, part, at, more, most);
    if (fault == INVERTED && (call == PREAD || call == READ))
        for (count k = 0; k < taken; k++) ((unsigned char *)bytes)[k] ^= 0xff;
    return taken;
}

static int plain(int class, long call, long file) {
    size fault = due(class);
    return fault && fault < HALF ? failed(fault) : syscall(call, file);
}

int open(const char *path, int flags, int mode) {
    if (!(flags & O_CREAT)) return syscall(OPENAT, AT_CWD, path, flags, mode);
    tell("open", 0, 0, 0);
    size fault = due(DISK);
    return fault && fault < HALF ? failed(fault) : (store = syscall(OPENAT, AT_CWD, path, flags, mode));
}

count pread(int file, void *bytes, size length, long at) {
    if (file == store) tell("pread", at, length, 0);
    return moved(file == store ? DISK : STREAM, PREAD, file, bytes, length, at, 0, 0);
}

count pwrite(int file, const void *bytes, size length, long at) {
    if (file == store) tell("pwrite", at, length, bytes);
    return moved(file == store ? DISK : STREAM, PWRITE, file, (void *)bytes, length, at, 0, 0);
}

int fsync(int file) {
    tell("fsync", 0, 0, 0);
    return plain(DISK, FSYNC, file);
}

int statx(int file, const char *path, int flags, unsigned mask, void *found) {
    tell("statx", 0, 0, 0);
    size fault = due(DISK);
    return fault && fault < HALF ? failed(fault) : syscall(STATX, file, path, flags, mask, found);
}

count read(int file, void *bytes, size length) { return moved(STREAM, READ, file, bytes, length, 0, 0, 0); }

count write(int file, const void *bytes, size length) { return moved(STREAM, WRITE, file, (void *)bytes, length, 0, 0, 0); }

count recv(int file, void *bytes, size length, int flags) { return moved(STREAM, RECVFROM, file, bytes, length, flags, 0, 0); }

count send(int file, const void *bytes, size length, int flags) {
    return moved(STREAM, SENDTO, file, (void *)bytes, length, flags, 0, 0);
}

/* A growth of 0x7ee0 << 48 bytes and more is always refused. Its lower 32 bits say which growth from then on is the first one
 * that is refused, and the 16 above them how many are. One of TELLS bytes is refused where one was refused since. */
enum { ASKS = 0x7ee0, TELLS = 4000037 };
static size armed_first, armed_count, armed_made, armed_met;

static int is_refused(size length) {
    if (length >> 48 == ASKS) {
        armed_first = length & 0xffffffff;
        armed_count = length >> 32 & 0xffff;
        armed_made = armed_met = 0;
        return 1;
    }
    if (length == TELLS) return armed_met;
    if (armed_count && ++armed_made >= armed_first && armed_made < armed_first + armed_count) return armed_met = 1;
    return ready && due(MEMORY);
}

void *malloc(size length) { return is_refused(length) ? 0 : __libc_malloc(length); }

void *realloc(void *old, size length) { return is_refused(length) ? 0 : __libc_realloc(old, length); }
