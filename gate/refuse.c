/* This library is loaded with a program, and makes the calls fail whose numbers these variables have. The first
 * call has the number 1, and 0 is no call:
 *   REFUSED  an allocation, which is a call that asks the C library for memory
 *   FAILED   a read or a write, which then moves nothing and fails
 *   SHORT    a read or a write, which then moves at most one byte; `all` is every read and write
 *   FIRST    the first allocation whose bytes are added up
 * Reads and writes are numbered together. When the program ends, the library writes to the stream with the number
 * COUNTS how many allocations were tried, and for how many bytes in all; how many blocks weren't freed; and how many
 * moves, which are reads and writes, were tried.
 *
 * gate/refusals builds it with the C compiler of the kit. */

void *__libc_malloc(unsigned long size);
void *__libc_realloc(void *block, unsigned long size);
void __libc_free(void *block);
long __read(int stream, void *bytes, unsigned long size);
long __write(int stream, const void *bytes, unsigned long size);
char *getenv(const char *name);
int atoi(const char *text);
int dprintf(int stream, const char *format, ...);
int *__errno_location(void);

enum { INPUT_OUTPUT_ERROR = 5 };

static int refused, failed, shortened, all_short, first;
static int reserved, held, moved;
static unsigned long asked;

static int number(const char *name) {
    const char *text = getenv(name);
    return text ? atoi(text) : 0;
}

__attribute__((constructor)) static void begin(void) {
    const char *text = getenv("SHORT");
    refused = number("REFUSED");
    failed = number("FAILED");
    shortened = number("SHORT");
    first = number("FIRST");
    all_short = text && *text == 'a';
    reserved = held = moved = 0;
    asked = 0;
}

/* Returns whether the allocation that is tried now succeeds. */
static int is_granted(unsigned long size) {
    reserved += 1;
    asked += reserved < first ? 0 : size;
    return reserved != refused;
}

void *malloc(unsigned long size) {
    void *const block = is_granted(size) ? __libc_malloc(size) : 0;
    held += block != 0;
    return block;
}

void *realloc(void *block, unsigned long size) {
    void *const moved_to = is_granted(size) ? __libc_realloc(block, size) : 0;
    held += block == 0 && moved_to != 0;
    return moved_to;
}

void free(void *block) {
    held -= block != 0;
    __libc_free(block);
}

/* Returns how many of these bytes the next read or write moves at most, or -1 if it fails. */
static long allowed(unsigned long size) {
    moved += 1;
    if (moved == failed) {
        *__errno_location() = INPUT_OUTPUT_ERROR;
        return -1;
    }
    return size > 1 && (all_short || moved == shortened) ? 1 : (long)size;
}

long read(int stream, void *bytes, unsigned long size) {
    const long most = allowed(size);
    return most < 0 ? -1 : __read(stream, bytes, most);
}

long write(int stream, const void *bytes, unsigned long size) {
    const long most = allowed(size);
    return most < 0 ? -1 : __write(stream, bytes, most);
}

__attribute__((destructor)) static void end(void) {
    const int reservations = reserved, left = held, moves = moved;
    const unsigned long bytes = asked;
    const int stream = number("COUNTS");
    if (stream) {
        dprintf(stream, "reservations %d %lu\nleft %d\nmoves %d\n", reservations, bytes, left, moves);
    }
}
