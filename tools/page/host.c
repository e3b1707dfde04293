/* What the page's module has in the place of the C library and of the runtime's own C code: files and words of the command line are
   asked of JavaScript, and memory is taken from the module's own. No call waits, and there is one thread. */
typedef unsigned long size_t;
typedef long ssize_t;
typedef unsigned char byte;

#define IMPORT(name) __attribute__((import_module("host"), import_name(#name)))
#define EXPORT(name) __attribute__((export_name(#name)))

IMPORT(read) ssize_t host_read(int file, void *at, size_t count);
IMPORT(write) ssize_t host_write(int file, const void *at, size_t count);
IMPORT(open) int host_open(const void *path, size_t length);
IMPORT(seek) long host_seek(int file, long offset, int whence);
IMPORT(word_count) int host_word_count(void);
IMPORT(word_length) int host_word_length(int number);
IMPORT(copy_word) void host_copy_word(int number, void *at);

int program_main(int count, char **words) __asm__("main");

EXPORT(run) int run(void) { return program_main(0, 0); }

/* errors: a host's negative answer is the number of one, which has no words here */

enum { NOT_VALID = 22 };

static int error;

int rattle_errno(void) { return error; }
void rattle_set_errno(int number) { error = number; }

static long told(long answer)
{
    if (answer >= 0)
        return answer;
    error = (int)-answer;
    return -1;
}

int __xpg_strerror_r(int number, char *at, size_t room)
{
    (void)number;
    if (room)
        *at = 0;
    return 0;
}

/* no signal comes */
void *__sysv_signal(int number, void *handler) { (void)number; (void)handler; return 0; }

/* files */

ssize_t read(int file, void *at, size_t count) { return told(host_read(file, at, count)); }
ssize_t write(int file, const void *at, size_t count) { return told(host_write(file, at, count)); }
long lseek(int file, long offset, int whence) { return told(host_seek(file, offset, whence)); }

int open(const char *path, int flags, ...)
{
    size_t length = 0;
    (void)flags;
    while (path[length])
        length++;
    return (int)told(host_open(path, length));
}

/* nothing is kept back, and nobody else has the file */
int close(int file) { (void)file; return 0; }
int fsync(int file) { (void)file; return 0; }
int fdatasync(int file) { (void)file; return 0; }
int flock(int file, int operation) { (void)file; (void)operation; return 0; }
int fchmod(int file, unsigned mode) { (void)file; (void)mode; return 0; }

/* an image is never made shorter */
int ftruncate(int file, long length) { (void)file; (void)length; return (int)told(-NOT_VALID); }

/* the words of the command line */

ssize_t rattle_arg(size_t number, byte *at, size_t room)
{
    int length;
    if (number >= (size_t)host_word_count())
        return -1;
    length = host_word_length((int)number);
    if ((size_t)length > room)
        return -2;
    host_copy_word((int)number, at);
    return length;
}

/* the heap: blocks one after the other, each after its size. What is let go is taken again where it was the last one, and a run
   that is over leaves the whole. */

enum { ALIGNMENT = 16, PAGE = 65536 };

extern byte __heap_base;
static byte *heap_end;

struct tried {
    byte ok;
    byte *at;
};

static size_t rounded(size_t count) { return (count + ALIGNMENT - 1) & ~(size_t)(ALIGNMENT - 1); }

static int has_room(byte *end)
{
    size_t wanted = ((size_t)end + PAGE - 1) / PAGE, there = __builtin_wasm_memory_size(0);
    return wanted <= there || __builtin_wasm_memory_grow(0, wanted - there) != (size_t)-1;
}

static size_t *size_of(byte *block) { return (size_t *)(block - ALIGNMENT); }

struct tried rattle_alloc(size_t count, size_t alignment)
{
    struct tried tried = {0, 0};
    byte *block;
    (void)alignment;
    if (!heap_end)
        heap_end = (byte *)rounded((size_t)&__heap_base);
    block = heap_end + ALIGNMENT;
    if (rounded(count) < count || !has_room(block + rounded(count)))
        return tried;
    *size_of(block) = count;
    heap_end = block + rounded(count);
    tried.ok = 1;
    tried.at = block;
    return tried;
}

void rattle_dealloc(byte *block)
{
    if (block && block + rounded(*size_of(block)) == heap_end)
        heap_end = block - ALIGNMENT;
}

struct tried rattle_realloc(byte *block, size_t kept, size_t count, size_t alignment)
{
    struct tried tried = rattle_alloc(count, alignment);
    size_t i;
    if (!tried.ok)
        return tried;
    for (i = 0; i < kept && i < count; i++)
        tried.at[i] = block[i];
    return tried;
}
