// Refuses a program what it asks of the system, as the environment says. tests/faults loads it before the C library.
//
//     INJECT_ALLOC=N          the request for memory N is refused, counted from 1
//     INJECT_THREAD=N         the thread N can't be made, counted from 1
//     INJECT_READ=K:HOW       once K bytes were read from standard input, HOW: each read fails (error), one read is
//                             interrupted (interrupt), or each gives nothing, as at the end (nothing)
//     INJECT_WRITE=K:HOW      the same of standard output: each write fails, one is interrupted, or each takes nothing
//     INJECT_ONE=1            reads and writes move one byte a call
//     INJECT_NOTE=FILE        the counts below are kept in this file, of at least 64 bytes
//
// It has no headers: what it takes of the C library it declares itself, as malloc and read are its own here.

typedef unsigned long size_t;
typedef long ssize_t;

extern void *__libc_malloc(size_t);
extern void *__libc_realloc(void *, size_t);
extern void *dlsym(void *, const char *);
extern char *getenv(const char *);
extern long syscall(long, ...);
extern int *__errno_location(void);

enum { SYS_READ = 0, SYS_WRITE = 1, SYS_OPEN = 2, SYS_MMAP = 9, SYS_NANOSLEEP = 35, SYS_EXIT_GROUP = 231 };
enum { READ_WRITE = 2, PROT_BOTH = 3, MAP_SHARED = 1 };
enum { EINTR = 4, EIO = 5, EAGAIN = 11, ENOMEM = 12 };

// What was asked, and what was refused. The order is that of tests/lib/hostile/common.py.
struct note {
    long allocs, threads, ended, refused;
};

static struct note own;
static struct note *note = &own;

// One stream: after `left` bytes something happens, as `how` says by its first letter. 0: nothing does.
struct stream {
    long left;
    char how;
};

static struct stream in, out;
static long alloc_at, thread_at;
static int one_byte;

static long number(const char *text) {
    long n = 0;
    while (text && *text >= '0' && *text <= '9') n = 10 * n + (*text++ - '0');
    return n;
}

static void stream_of(struct stream *stream, const char *text) {
    if (!text) return;
    stream->left = number(text);
    while (*text && *text != ':') text++;
    stream->how = *text ? text[1] : 0;
}

__attribute__((constructor)) static void begin(void) {
    const char *path = getenv("INJECT_NOTE");
    if (path) {
        long fd = syscall(SYS_OPEN, path, READ_WRITE);
        long at = syscall(SYS_MMAP, 0L, 4096L, (long)PROT_BOTH, (long)MAP_SHARED, fd, 0L);
        if (at > 0) note = (struct note *)at;
    }
    alloc_at = number(getenv("INJECT_ALLOC"));
    thread_at = number(getenv("INJECT_THREAD"));
    stream_of(&in, getenv("INJECT_READ"));
    stream_of(&out, getenv("INJECT_WRITE"));
    one_byte = getenv("INJECT_ONE") != 0;
    note->allocs = note->threads = note->ended = note->refused = 0;
}

static long read_count(long *counter) {
    return __atomic_load_n(counter, __ATOMIC_SEQ_CST);
}

// The last instructions of a thread that was waited for may still run when the program ends. One that is left behind
// doesn't end, and is seen by the counts.
__attribute__((destructor)) static void wait_for_threads(void) {
    long millisecond[2] = {0, 1000000};
    for (int i = 0; i < 2000 && read_count(&note->ended) < read_count(&note->threads); i++) {
        syscall(SYS_NANOSLEEP, millisecond, 0L);
    }
}

void _exit(int status) {
    wait_for_threads();
    for (;;) syscall(SYS_EXIT_GROUP, (long)status);
}

static long count(long *counter) {
    return __atomic_add_fetch(counter, 1, __ATOMIC_SEQ_CST);
}

static long refuse(int why) {
    count(&note->refused);
    *__errno_location() = why;
    return -1;
}

static int is_refused(long *counter, long at) {
    if (count(counter) != at) return 0;
    refuse(ENOMEM);
    return 1;
}

void *malloc(size_t size) {
    return is_refused(&note->allocs, alloc_at) ? 0 : __libc_malloc(size);
}

void *realloc(void *old, size_t size) {
    return is_refused(&note->allocs, alloc_at) ? 0 : __libc_realloc(old, size);
}

// How many bytes a call may move, or what it answers in their place, which is at most 0.
static long moved(struct stream *stream, size_t size) {
    if (stream->how && stream->left == 0) {
        if (stream->how == 'i') {
            stream->how = 0;
            return refuse(EINTR);
        }
        if (stream->how == 'e') return refuse(EIO);
        count(&note->refused);
        return 0;
    }
    if (stream->how && (long)size > stream->left) size = stream->left;
    return one_byte && size > 1 ? 1 : (long)size;
}

static ssize_t move(struct stream *stream, long call, int fd, void *bytes, size_t size) {
    if (size == 0) return syscall(call, (long)fd, bytes, size);
    long most = moved(stream, size);
    if (most <= 0) return most;
    ssize_t done = syscall(call, (long)fd, bytes, most);
    if (stream->how && done > 0) stream->left -= done;
    return done;
}

ssize_t read(int fd, void *bytes, size_t size) {
    if (fd != 0) return syscall(SYS_READ, (long)fd, bytes, size);
    return move(&in, SYS_READ, fd, bytes, size);
}

ssize_t write(int fd, const void *bytes, size_t size) {
    if (fd != 1) return syscall(SYS_WRITE, (long)fd, bytes, size);
    return move(&out, SYS_WRITE, fd, (void *)bytes, size);
}

ssize_t __write(int fd, const void *bytes, size_t size) {
    return write(fd, bytes, size);
}

// What a thread does.
struct job {
    void *(*work)(void *);
    void *with;
};

static void *work_and_note(void *given) {
    struct job *job = given;
    void *answer = job->work(job->with);
    count(&note->ended);
    return answer;
}

// At most so many threads are made by the runs of the tests.
enum { MOST_THREADS = 1024 };

int pthread_create(void *thread, const void *attributes, void *(*work)(void *), void *with) {
    static struct job jobs[MOST_THREADS + 1];
    static long asked;
    static int (*real)(void *, const void *, void *(*)(void *), void *);
    if (!real) real = dlsym((void *)-1L, "pthread_create");
    long place = count(&asked);
    if (place == thread_at || place > MOST_THREADS) {
        refuse(EAGAIN);
        return EAGAIN;
    }
    jobs[place].work = work;
    jobs[place].with = with;
    int refused = real(thread, attributes, work_and_note, &jobs[place]);
    if (!refused) count(&note->threads);
    return refused;
}
