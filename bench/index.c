// The parts of `benches index` by calls of the system alone: FILE CALLS FEW ROUNDS. CALLS
// has the calls of the disk that the program made, a line each, under the name of their part: they
// are made again in the same order (`fstat` in place of `statx`), with zeros for what is written.
// A short write or an interrupted call ends it, and it does not look at what it reads. In place of
// a run of FEW entries that goes into an index it sorts so many and writes them once, to a file of
// their own; in place of copies of five indexes it moves so many bytes as these have. The calls of
// `load` are made once more, as the part `keep`, which compares what it read and keeps it, since a
// program that loads an index does both.
#include <fcntl.h>
#include <stdint.h>
#include <stdio.h>
#include <stdlib.h>
#include <string.h>
#include <sys/stat.h>
#include <time.h>
#include <unistd.h>

enum { KEY = 32, ENTRY = 36, LEAF = 113, PAGE = 4096, INDEXES = 5, LONGEST = 1 << 16 };

struct call {
    char kind;
    size_t size;
    off_t at;
};

static int file;
static unsigned char buffer[LONGEST];
static struct timespec start;

static void failed(void) {
    fprintf(stderr, "a call failed\n");
    exit(1);
}

static void *taken(size_t size) {
    void *memory = malloc(size ? size : 1);
    if (memory == NULL) failed();
    return memory;
}

static void begin(void) { clock_gettime(CLOCK_MONOTONIC, &start); }

static void tell(const char *part, long came_to) {
    struct timespec end;
    clock_gettime(CLOCK_MONOTONIC, &end);
    long spent = (end.tv_sec - start.tv_sec) * 1000000 + (end.tv_nsec - start.tv_nsec) / 1000;
    printf("%s %ld %ld\n", part, came_to, spent);
}

static void make(const struct call *call) {
    struct stat about;
    switch (call->kind) {
        case 'l':
            if (fstat(file, &about) != 0) failed();
            break;
        case 'r':
            if (pread(file, buffer, call->size, call->at) < 0) failed();
            break;
        case 'w':
            if (pwrite(file, buffer, call->size, call->at) != (ssize_t)call->size) failed();
            break;
        default:
            if (fdatasync(file) != 0) failed();
    }
}

static int by_bytes(const void *a, const void *b) { return memcmp(a, b, ENTRY); }

// Sorts entries that come in no order, and writes them once.
static void build(const char *path, uint32_t few) {
    char name[4096];
    unsigned char *entries = taken((size_t)few * ENTRY);
    uint32_t number = 1;
    for (uint32_t i = 0; i < few; i++) {
        unsigned char *entry = entries + (size_t)i * ENTRY;
        memset(entry, 0x61, KEY);
        number = number * 1664525 + 1013904223;
        for (int b = 0; b < 4; b++) entry[b] = (unsigned char)(number >> (24 - 8 * b));
        memcpy(entry + KEY, &i, 4);
    }
    snprintf(name, sizeof name, "%s.entries", path);
    int other = open(name, O_RDWR | O_CREAT | O_TRUNC | O_CLOEXEC, 0666);
    if (other < 0) failed();
    begin();
    qsort(entries, few, ENTRY, by_bytes);
    if (write(other, entries, (size_t)few * ENTRY) != (ssize_t)((size_t)few * ENTRY)) failed();
    tell("build", few);
    close(other);
    unlink(name);
    free(entries);
}

// Moves the bytes of five indexes: a page and an entry for each leaf.
static void copy(uint32_t few, uint32_t rounds) {
    size_t leaves = (few + LEAF - 1) / LEAF;
    unsigned char *from[2 * INDEXES];
    unsigned char *to[2 * INDEXES];
    for (int i = 0; i < 2 * INDEXES; i++) {
        from[i] = taken(leaves * ENTRY);
        to[i] = taken(leaves * ENTRY);
        memset(from[i], i, leaves * ENTRY);
        memset(to[i], i, leaves * ENTRY);
    }
    begin();
    for (uint32_t round = 0; round < rounds; round++) {
        for (int i = 0; i < 2 * INDEXES; i++) {
            memcpy(to[i], from[i], leaves * (i % 2 ? ENTRY : 4));
            __asm__ volatile("" : : "r"(to[i]) : "memory");
        }
    }
    tell("copy", rounds);
}

// Makes the calls of a load again: each page that is read is taken for a leaf, whose entries are
// compared, each with the one before it, and kept in new memory.
static void keep(const struct call *calls, size_t count, long came_to) {
    size_t kept = 0, rising = 0;
    begin();
    unsigned char *entries = taken((count + 1) * LEAF * ENTRY);
    memset(entries, 0, ENTRY);
    for (size_t i = 0; i < count; i++) {
        make(&calls[i]);
        if (calls[i].kind != 'r' || calls[i].size < PAGE) continue;
        for (size_t place = 0; place < LEAF; place++) {
            const unsigned char *entry = buffer + 2 + place * ENTRY;
            unsigned char *last = entries + kept * ENTRY;
            rising += memcmp(last, entry, ENTRY) < 0;
            memcpy(last + ENTRY, entry, ENTRY);
            kept++;
        }
    }
    tell("keep", came_to);
    if (rising > kept) failed();
    free(entries);
}

// Makes the calls of each part.
static void replay(const char *path) {
    FILE *lines = fopen(path, "r");
    if (lines == NULL) failed();
    size_t count = 0, room = 1 << 12;
    struct call *calls = taken(room * sizeof *calls);
    char word[16], part[16] = "";
    unsigned long at, size;
    long came_to = 0;
    int more = 1;
    while (more) {
        more = fscanf(lines, "%15s", word) == 1;
        if (!more || strcmp(word, "part") == 0) {
            if (strcmp(part, "") != 0 && strcmp(part, "build") != 0 && strcmp(part, "copy") != 0) {
                begin();
                for (size_t i = 0; i < count; i++) make(&calls[i]);
                tell(part, came_to);
                if (strcmp(part, "load") == 0) keep(calls, count, came_to);
            }
            count = 0;
            if (more && fscanf(lines, "%15s %ld", part, &came_to) != 2) failed();
            continue;
        }
        if (fscanf(lines, "%lu %lu", &at, &size) != 2 || size > LONGEST) failed();
        if (count == room) {
            room *= 2;
            calls = realloc(calls, room * sizeof *calls);
            if (calls == NULL) failed();
        }
        calls[count++] = (struct call){word[0], size, (off_t)at};
    }
    fclose(lines);
    free(calls);
}

int main(int count, char **words) {
    if (count != 5) return 2;
    uint32_t few = (uint32_t)atol(words[3]);
    uint32_t rounds = (uint32_t)atol(words[4]);
    build(words[1], few);
    file = open(words[1], O_RDWR | O_CREAT | O_CLOEXEC, 0666);
    if (file < 0) failed();
    replay(words[2]);
    copy(few, rounds);
    return 0;
}
