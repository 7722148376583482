/* The machine and what it stands on: its limits (docs/machines.md, docs/images.md), its state, a word with its
 * fields, numbers as bytes, and files. */

#include <stdarg.h>
#include <stdint.h>
#include <stdio.h>
#include <stdlib.h>
#include <string.h>

typedef uint64_t u64;
typedef int64_t s64;
typedef uint8_t byte;
typedef __int128 wide;

enum { MOST_WORDS = 262144, MOST_DATA = 16777216, LEAST_STACK = 16, MOST_STACK = 1048576, MOST_SEGMENTS = 8, PAGE = 8192 };
enum { TOP = 1 << 30, MOST_WAITED = 1024, MOST_BYTES = 8388608, MOST_ITEMS = 1048576, MOST_UNITS = 1000000000 };
enum completion { WRAP, SATURATE, STOP };
enum ending { NONE, EXIT, SIGNAL, FETCH, ACCESS, ALIGN, LOST, OVERFLOW };
enum item_kind { UNITS, TRIGGER, WAIT, REPORT };
enum kind { NO_WORD, PLAIN, TRAPPING, LOAD, STORE, LOCKED_LOAD, CONDITIONAL_STORE, TURN, BARRIER };
enum { DONE = 0, NO_IMAGE = 4, ENDED = 5, SPENT = 6, TRAP_LOST = 7, NO_FILE = 8, NO_JOURNAL = 18, NO_RUN = 19, FULL = 20 };

struct region { u64 base, size; byte *bytes; int is_writable; };
struct word { enum kind kind; unsigned number, opcode, function, ra, rb, rc; int has_literal; u64 literal; s64 displacement, distance; };
struct bytes { byte *at; u64 count; };
struct item { byte kind, flag; u64 value; };

/* The machine: the program's world, and a pending trap. */
static struct {
    u64 reg[32], pc, unique, lock;
    int is_locked;
    u64 code_base, words;
    const byte *code;
    struct region region[MOST_SEGMENTS + 2];
    int regions, level;
    enum completion completion;
    struct bytes input, output;
    u64 taken;
    enum ending end;
    u64 first, second;
    int is_pending;
    unsigned mask, waited;
} m;
static int is_watched, notes_overflows = 1;
static struct { struct item *at; u64 count; } items;

static u64 little(const byte *at, int size)
{
    u64 value = 0;
    for (int n = 0; n < size; n++)
        value |= (u64)at[n] << 8 * n;
    return value;
}

static void put_little(byte *at, u64 value, int size)
{
    for (int n = 0; n < size; n++)
        at[n] = value >> 8 * n;
}

static u64 extended(u64 value, int bits)
{
    return (u64)((s64)(value << (64 - bits)) >> (64 - bits));
}

static void stop_with(int status, const char *format, ...)
{
    va_list rest;
    va_start(rest, format);
    vfprintf(stderr, format, rest);
    va_end(rest);
    fputc('\n', stderr);
    exit(status);
}

static void append(struct bytes *to, const byte *at, u64 count)
{
    to->at = realloc(to->at, to->count + count + 1);
    if (!to->at)
        stop_with(12, "no memory");
    memcpy(to->at + to->count, at, count);
    to->count += count;
}

static struct bytes whole(FILE *file)
{
    struct bytes found = {0};
    byte part[65536] = {0};
    size_t count;
    if (!file)
        stop_with(NO_FILE, "shelf");
    append(&found, part, 0);
    while ((count = fread(part, 1, sizeof part, file)) > 0)
        append(&found, part, count);
    fclose(file);
    return found;
}
