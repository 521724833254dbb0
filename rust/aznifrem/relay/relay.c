/* The relay: runs the exported calls of the proved library, which is for x86-64, for a caller on another processor.
 *
 * It makes the memory that both share, and tells its caller which of its files that is. Then, for each call, it reads words from
 * standard input and writes the result to standard output. A word is 8 bytes, little-endian on both sides. It ends when its
 * caller does. */
#include "aznifrem.h"

typedef uint64_t word;

/* Of the C library for x86-64, which has no headers here. */
long read(int file, void *bytes, size_t count);
long write(int file, const void *bytes, size_t count);
void *mmap(void *at, size_t length, int allowed, int flags, int file, long offset);
int munmap(void *at, size_t length);
int memfd_create(const char *name, unsigned flags);
int dprintf(int file, const char *format, ...);
_Noreturn void _exit(int status);
void (*signal(int number, void (*handler)(int)))(int);
unsigned alarm(unsigned seconds);
struct pollfd { int file; short wanted, seen; };
int poll(struct pollfd *files, unsigned long count, int milliseconds);

enum { READ_AND_WRITE = 3, SHARED = 1, ALARM = 14, HUNG_UP = 0x10 };
enum { REQUESTS = 0, RESULTS = 1, ERRORS = 2 };

/* The shared memory, as far as it is mapped. */
static uint8_t *memory;
static word mapped;

/* A slice comes as the place in the memory at which it begins. */
static const uint8_t *to_read(word place) { return memory + place; }
static uint8_t *to_write(word place) { return memory + place; }

/* Made by the build script: MOST_WORDS, and the array `exported` of functions over words. */
#include "exported.h"

static _Noreturn void fail(const char *what, word number) {
    dprintf(ERRORS, "aznifrem's relay: %s (%lu)\n", what, number);
    _exit(1);
}

/* A call may take minutes, and its caller may be killed meanwhile. */
static void look_for_caller(int number) {
    struct pollfd requests = {REQUESTS, 0, 0};
    (void)number;
    if (poll(&requests, 1, 0) > 0 && requests.seen & HUNG_UP) _exit(0);
    alarm(1);
}

static void receive(word *words, word count) {
    uint8_t *at = (uint8_t *)words, *end = (uint8_t *)(words + count);
    while (at < end) {
        long got = read(REQUESTS, at, end - at);
        if (got == 0) _exit(0);
        if (got < 0) fail("the next call cannot be read", count);
        at += got;
    }
}

static void send(const word *words, word count) {
    if (write(RESULTS, words, count * sizeof *words) != (long)(count * sizeof *words)) fail("a result cannot be written", count);
}

static void map(int file, word length) {
    if (length == mapped) return;
    if (mapped != 0) munmap(memory, mapped);
    memory = mmap(0, length, READ_AND_WRITE, SHARED, file, 0);
    if (memory == (uint8_t *)-1) fail("so many bytes of shared memory cannot be mapped", length);
    mapped = length;
}

int main(void) {
    int file = memfd_create("aznifrem", 0);
    if (file < 0) fail("there is no shared memory", 0);
    send((word[]){file}, 1);
    signal(ALARM, look_for_caller);
    alarm(1);
    for (;;) {
        /* The memory's length, which call, how many words; then the words. */
        word request[3], words[MOST_WORDS];
        receive(request, 3);
        if (request[1] >= sizeof exported / sizeof *exported) fail("there is no such call", request[1]);
        if (request[2] > MOST_WORDS) fail("no call has so many words", request[2]);
        receive(words, request[2]);
        map(file, request[0]);
        word result = exported[request[1]](words);
        send(&result, 1);
    }
}
