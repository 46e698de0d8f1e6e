/* Runs the program again and again, and refuses one of its calls of the C library in each run.

   The library is loaded before the program (LD_PRELOAD). Before the program begins, it makes a child for each run, which
   goes on as the program would: with one request for memory, one open, one read or one write refused, alone or from there
   on, or with one byte moved at a time. What the program writes is kept here, and judged when the child has ended.

   The first run has nothing refused: what it writes and answers is the command's own answer. Then holds of each run:
   - memory refused: `refused 26 NoMemory`, in English or in German, perhaps behind lines of the own text on standard error,
     and nothing written; or the command's own answer;
   - an open refused: `refused 6 Device`, perhaps with words that end in a file's name, and nothing written;
   - a read refused: `refused 6 Device`, likewise, and as much of the own answer as KEEPS allows: `letters` is the letters that
     standard input had given before, else it is a list of lengths;
   - a write refused: `refused 6 Device`, and exactly the bytes of the own answer that were taken before;
   - the line on standard error refused: the same status and the same answer;
   - one byte at a time: the command's own answer.
   Where REFUSED is set, a refusal begins with its text, in place of `refused `.
   Where MEMORY_ALONE is set, requests for memory are refused, and nothing else is.
   With the words of CASE before it, each run that isn't so is told on a line; the last line is how many were, and weren't.
*/
#define _GNU_SOURCE
#include <dlfcn.h>
#include <errno.h>
#include <fcntl.h>
#include <stdarg.h>
#include <stddef.h>
#include <stdio.h>
#include <stdlib.h>
#include <string.h>
#include <sys/mman.h>
#include <sys/resource.h>
#include <sys/syscall.h>
#include <sys/wait.h>
#include <unistd.h>

enum kind { NOTHING, MEMORY, OPEN, READ, WRITE, ERROR_LINE, KINDS };
static const char *const names[KINDS] = {"nothing", "memory", "open", "read", "write", "error line"};

#define ROOM (1 << 21)

/* What a run is to do, and what came of it. */
static struct run {
    enum kind kind;        /* the calls that are counted */
    long number;           /* the one that is refused, from 1; 0 for none */
    int from_there_on;     /* whether those behind it are refused too */
    int byte_by_byte;      /* whether reads and writes move one byte */
    long calls[KINDS];     /* how many calls of each kind came */
    long reads_before;     /* the reads before the last open */
    long letters;          /* the letters that standard input gave before the refused call */
    int status;            /* as `waitpid` tells it */
    size_t out, err;       /* how many bytes were written to standard output and standard error */
    char out_bytes[ROOM], err_bytes[4096];
} *run, *own;

static int in_child;

/* Counts a call, and tells whether it is refused. */
static int is_refused(enum kind kind)
{
    long number;
    if (!in_child) return 0;
    number = ++run->calls[kind];
    if (kind != run->kind || run->number == 0) return 0;
    return run->from_there_on ? number >= run->number : number == run->number;
}

static int has_refused(void)
{
    return run->number != 0 && run->calls[run->kind] >= run->number;
}

void *malloc(size_t size)
{
    static void *(*real)(size_t);
    if (is_refused(MEMORY)) return errno = ENOMEM, NULL;
    if (!real) *(void **)&real = dlsym(RTLD_NEXT, "malloc");
    return real(size);
}

void *realloc(void *old, size_t size)
{
    static void *(*real)(void *, size_t);
    if (is_refused(MEMORY)) return errno = ENOMEM, NULL;
    if (!real) *(void **)&real = dlsym(RTLD_NEXT, "realloc");
    return real(old, size);
}

int open(const char *name, int flags, ...)
{
    va_list more;
    va_start(more, flags);
    mode_t mode = flags & O_CREAT ? va_arg(more, mode_t) : 0;
    va_end(more);
    if (is_refused(OPEN)) return errno = EACCES, -1;
    if (in_child) run->reads_before = run->calls[READ];
    return syscall(SYS_openat, AT_FDCWD, name, flags, mode);
}

ssize_t read(int file, void *bytes, size_t size)
{
    ssize_t got;
    if (is_refused(READ)) return errno = EIO, -1;
    got = syscall(SYS_read, file, bytes, in_child && run->byte_by_byte && size > 1 ? 1 : size);
    for (ssize_t i = 0; in_child && file == 0 && i < got; i++) {
        char byte = ((char *)bytes)[i];
        run->letters += byte >= 'A' && byte <= 'Z';
    }
    return got;
}

ssize_t write(int file, const void *bytes, size_t size)
{
    size_t *used = file == 1 ? &run->out : &run->err;
    size_t room = file == 1 ? sizeof run->out_bytes : sizeof run->err_bytes;
    if (!in_child || (file != 1 && file != 2)) return syscall(SYS_write, file, bytes, size);
    if (is_refused(file == 1 ? WRITE : ERROR_LINE)) return errno = ENOSPC, -1;
    if (run->byte_by_byte && size > 1) size = 1;
    if (size > room - *used) abort();
    memcpy((file == 1 ? run->out_bytes : run->err_bytes) + *used, bytes, size);
    *used += size;
    return size;
}

ssize_t __write(int file, const void *bytes, size_t size)
{
    return write(file, bytes, size);
}

/* Whether the run ended by itself, with this status and this line on standard error. */
static int answers(const struct run *r, int status, const char *line, size_t length)
{
    return WIFEXITED(r->status) && WEXITSTATUS(r->status) == status && r->err == length
        && memcmp(r->err_bytes, line, length) == 0;
}

/* The line of a refusal, or its start: `text` behind the word that refusals begin with. */
static const char *refusal(const char *text)
{
    static char line[100];
    const char *word = getenv("REFUSED");
    snprintf(line, sizeof line, "%s%s", word ? word : "refused ", text);
    return line;
}

static int refuses(const struct run *r, const char *text)
{
    const char *line = refusal(text);
    return answers(r, 1, line, strlen(line));
}

static char **words;

/* Whether the run was refused with `6 Device`. If the line says more, it ends with a word of the command line. */
static int blames_file(const struct run *r)
{
    const char *device;
    if (refuses(r, "6 Device\n")) return 1;
    device = refusal("6 Device: ");
    if (!WIFEXITED(r->status) || WEXITSTATUS(r->status) != 1 || r->err < strlen(device) + 2
        || memcmp(r->err_bytes, device, strlen(device)) != 0
        || (char *)memchr(r->err_bytes, '\n', r->err) != r->err_bytes + r->err - 1) return 0;
    for (char **word = words + 1; *word != NULL; word++) {
        size_t size = strlen(*word);
        const char *at = r->err_bytes + r->err - 1 - size;
        if (size > 0 && size + strlen(device) < r->err && at[-1] == ' ' && memcmp(at, *word, size) == 0) return 1;
    }
    return 0;
}

/* Whether the run was refused for want of memory with `line`, perhaps after some lines of the own text on standard error. */
static int lacks_memory(const struct run *r, const char *line)
{
    size_t length = strlen(line), told = r->err < length ? 0 : r->err - length;
    return WIFEXITED(r->status) && WEXITSTATUS(r->status) == 1 && r->out == 0 && r->err == told + length
        && memcmp(r->err_bytes + told, line, length) == 0 && told <= own->err
        && memcmp(r->err_bytes, own->err_bytes, told) == 0 && (told == 0 || r->err_bytes[told - 1] == '\n');
}

static int is_own_out(const struct run *r)
{
    return r->out == own->out && memcmp(r->out_bytes, own->out_bytes, r->out) == 0;
}

static int is_own(const struct run *r)
{
    return answers(r, WEXITSTATUS(own->status), own->err_bytes, own->err) && is_own_out(r);
}

static int is_prefix(const struct run *r)
{
    return r->out <= own->out && memcmp(r->out_bytes, own->out_bytes, r->out) == 0;
}

/* Whether what was written is as long as KEEPS allows after a refused read. */
static int keeps(const struct run *r)
{
    const char *lengths = getenv("KEEPS");
    if (lengths == NULL) return r->out == 0;
    if (strcmp(lengths, "letters") == 0) return r->out == (size_t)r->letters;
    for (char *end; *lengths; lengths = end)
        if (strtoul(lengths, &end, 10) == r->out) return 1;
    return 0;
}

/* How many bytes the command tells on standard error before the line of its refusal. */
static size_t own_notes(void)
{
    size_t size = own->err;
    if (WEXITSTATUS(own->status) == 0 || size == 0) return size;
    for (size--; size > 0 && own->err_bytes[size - 1] != '\n'; size--) ;
    return size;
}

/* Whether the command is refused so, and told before it what it tells without a fault. */
static int refuses_behind_notes(const struct run *r, const char *text)
{
    size_t told = own_notes(), length = strlen(text);
    return WIFEXITED(r->status) && WEXITSTATUS(r->status) == 1 && r->err == told + length &&
        memcmp(r->err_bytes, own->err_bytes, told) == 0 && memcmp(r->err_bytes + told, text, length) == 0;
}

/* Whether standard error lacks the end of what is told before the refusal, but has its line. */
static int lacks_notes(const struct run *r)
{
    size_t told = own_notes(), last = own->err - told;
    return WIFEXITED(r->status) && WEXITSTATUS(r->status) == WEXITSTATUS(own->status) && r->err < own->err && r->err >= last &&
        memcmp(r->err_bytes, own->err_bytes, r->err - last) == 0 &&
        memcmp(r->err_bytes + r->err - last, own->err_bytes + told, last) == 0;
}

/* Whether the refused write was the last one, so that no byte came behind those before it. */
static int stops(const struct run *r)
{
    return r->calls[WRITE] == r->number && (!r->byte_by_byte || r->out == (size_t)r->number - 1);
}

static int is_right(const struct run *r)
{
    switch (r->kind) {
    /* If memory ends before the command line is read, the refusal is in the computer's language, not in that of `--in`. */
    case MEMORY: return is_own(r) || lacks_memory(r, "refused 26 NoMemory\n") || lacks_memory(r, "abgelehnt: 26 NoMemory\n");
    case OPEN: return blames_file(r) && r->out == 0;
    case READ: return blames_file(r) && is_prefix(r) && keeps(r);
    case WRITE: return refuses_behind_notes(r, refusal("6 Device\n")) && is_prefix(r) && stops(r);
    case ERROR_LINE:
        return is_own_out(r) && (lacks_notes(r) ||
            (answers(r, WEXITSTATUS(own->status), own->err_bytes, r->err) && r->err < own->err));
    default: return is_own(r);
    }
}

static long passed, failed;

/* A line for a run that failed; of a command only the first few. */
static void tell(const char *what)
{
    char line[1000];
    const char *end = memchr(run->err_bytes, '\n', run->err);
    int length = snprintf(line, sizeof line, "%.300s: %s %ld%s refused%s: %s; status %d, %zu bytes, %.*s\n",
        getenv("CASE"), names[run->kind], run->number, run->from_there_on ? " and on" : "",
        run->byte_by_byte ? ", a byte at a time" : "", what, run->status, run->out,
        end ? (int)(end - run->err_bytes) : 0, run->err_bytes);
    if (failed <= 5) syscall(SYS_write, 1, line, length);
}

static void judge(int right, const char *what)
{
    if (right) passed++;
    else failed++, tell(what);
}

/* Has a child go on with the program. It answers true in the child alone; the parent waits for the child's end. */
static int begin(enum kind kind, long number, int from_there_on, int byte_by_byte)
{
    pid_t child;
    memset(run, 0, offsetof(struct run, out_bytes));
    run->kind = kind, run->number = number, run->from_there_on = from_there_on, run->byte_by_byte = byte_by_byte;
    lseek(0, 0, SEEK_SET);
    child = fork();
    if (child == 0) {
        setrlimit(RLIMIT_CPU, &(struct rlimit){10, 10});
        return in_child = 1;
    }
    if (child < 0 || waitpid(child, &run->status, 0) != child) _exit(3);
    return 0;
}

/* Of a longer answer, written byte by byte, only so many writes are refused one by one, with as many between each two. */
#define MOST_WRITES 8000
#define FEWER_WRITES 128

/* Refuses the calls of a kind one after another, from the first that is named to one that never comes. True in a child. */
static int refuse_each(enum kind kind, long first, int from_there_on, int byte_by_byte)
{
    long step = kind == WRITE && byte_by_byte && own->out > MOST_WRITES ? own->out / FEWER_WRITES : 1;
    for (long number = first;; number += step) {
        if (begin(kind, number, from_there_on, byte_by_byte)) return 1;
        if (!has_refused()) break;
        judge(is_right(run), "another answer than is due");
    }
    run->kind = NOTHING;
    judge(is_own(run), "not the own answer, though nothing was refused");
    return 0;
}

/* How many reads, of one byte each, are refused one by one: of longer files only the reads as they are. They are those of
   the last file that is opened and of standard input, since files are read whole, but for the last one. */
#define MOST_READS 600

static int go_through(void)
{
    long first, reads;
    if (begin(NOTHING, 0, 0, 0)) return 1;
    memcpy(own, run, sizeof *run);
    judge(WIFEXITED(own->status) && own->calls[MEMORY] > 0 && own->out + own->err > 0, "the calls don't come here");
    if (getenv("MEMORY_ALONE")) return refuse_each(MEMORY, 1, 0, 0) || refuse_each(MEMORY, 1, 1, 0);
    if (begin(NOTHING, 0, 0, 1)) return 1;
    judge(is_own(run), "not the own answer");
    first = run->reads_before + 1, reads = run->calls[READ] - run->reads_before;
    for (int from_there_on = 0; from_there_on < 2; from_there_on++) {
        for (enum kind kind = MEMORY; kind <= ERROR_LINE; kind++)
            if (refuse_each(kind, 1, from_there_on, 0)) return 1;
    }
    if (refuse_each(WRITE, 1, 0, 1)) return 1;
    return reads <= MOST_READS && refuse_each(READ, first, 0, 1);
}

static void *shared(void)
{
    void *place = mmap(NULL, sizeof *run, PROT_READ | PROT_WRITE, MAP_SHARED | MAP_ANONYMOUS, -1, 0);
    if (place == MAP_FAILED) _exit(3);
    return place;
}

__attribute__((constructor)) static void run_all(int count, char **arguments)
{
    char line[100];
    words = arguments;
    (void)count;
    run = shared(), own = shared();
    if (go_through()) return;
    syscall(SYS_write, 1, line, snprintf(line, sizeof line, "%ld passed, %ld failed\n", passed, failed));
    _exit(0);
}
