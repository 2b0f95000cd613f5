// The parts of `benches pages` over a file, by calls of the system alone: FILE CHAINS
// WORKS. It makes the same calls in the same order (`fstat` in place of `statx`), and differs in
// this: it keeps no pages, a short write or an interrupted call ends it, and it does not look at
// what it reads.
#include <fcntl.h>
#include <stdint.h>
#include <stdio.h>
#include <stdlib.h>
#include <string.h>
#include <sys/stat.h>
#include <time.h>
#include <unistd.h>

enum { BLOCK = 4096, ENTRY = 4100, GATE = 4096, DESCRIPTOR = 8192, COUNT = 12288, PAGES = 16384 };

static int file;
static unsigned char zeros[BLOCK];
static unsigned char entry[ENTRY];

static void failed(void) {
    fprintf(stderr, "a call failed\n");
    exit(1);
}

static void put(const void *bytes, size_t size, off_t at) {
    if (pwrite(file, bytes, size, at) != (ssize_t)size) failed();
}

static void get(void *bytes, size_t size, off_t at) {
    if (pread(file, bytes, size, at) != (ssize_t)size) failed();
}

static void sync_all(void) {
    if (fdatasync(file) != 0) failed();
}

static void put_number(unsigned char *bytes, uint32_t number) {
    for (int i = 0; i < 4; i++) bytes[i] = (unsigned char)(number >> (24 - 8 * i));
}

// The length, behind a sync.
static void settle(void) {
    struct stat about;
    sync_all();
    if (fstat(file, &about) != 0) failed();
}

static void make(void) {
    unsigned char one[4];
    put_number(one, 1);
    settle();
    put(zeros, BLOCK, 0);
    sync_all();
    put(zeros, BLOCK, GATE);
    put(zeros, BLOCK, DESCRIPTOR);
    put(one, 4, COUNT);
    put(zeros, BLOCK, PAGES);
    sync_all();
    put("ABCTUNE1", 8, 0);
    sync_all();
}

// A commit of new pages, from `first` on: each the end of a chain of 200 bytes.
static void commit(uint32_t first, uint32_t pages) {
    unsigned char numbers[8];
    uint32_t count = first + pages;
    off_t log = PAGES + (off_t)BLOCK * count;
    memset(entry, 0, ENTRY);
    entry[9] = 200;
    memset(entry + 10, 0x5a, 200);
    for (uint32_t i = 0; i < pages; i++) {
        put_number(entry, first + i);
        put(entry, ENTRY, log + (off_t)ENTRY * i);
    }
    put_number(numbers, count);
    put_number(numbers + 4, pages);
    put(numbers, 8, DESCRIPTOR);
    sync_all();
    put("\xa7", 1, GATE);
    sync_all();
    for (uint32_t i = 0; i < pages; i++) {
        put(entry + 4, BLOCK, PAGES + (off_t)BLOCK * (first + i));
    }
    put(numbers, 4, COUNT);
    sync_all();
    put(zeros, 1, GATE);
    sync_all();
}

// The reads of an opening, and of each page.
static void claim(uint32_t chains) {
    unsigned char bytes[BLOCK];
    settle();
    get(bytes, 8, 0);
    get(bytes, 1, GATE);
    get(bytes, 4, COUNT);
    for (uint32_t page = 0; page <= chains; page++) {
        get(bytes, BLOCK, PAGES + (off_t)BLOCK * page);
    }
}

static struct timespec start;

static void begin(void) { clock_gettime(CLOCK_MONOTONIC, &start); }

static void tell(const char *part, long came_to) {
    struct timespec end;
    clock_gettime(CLOCK_MONOTONIC, &end);
    long spent = (end.tv_sec - start.tv_sec) * 1000000 + (end.tv_nsec - start.tv_nsec) / 1000;
    printf("%s %ld %ld\n", part, came_to, spent);
}

int main(int count, char **words) {
    if (count != 4) return 2;
    uint32_t chains = (uint32_t)atol(words[2]);
    uint32_t works = (uint32_t)atol(words[3]);
    file = open(words[1], O_RDWR | O_CREAT | O_CLOEXEC, 0666);
    if (file < 0) failed();
    make();
    begin();
    if (chains > 0) commit(1, chains);
    tell("put", chains);
    begin();
    claim(chains);
    tell("claim", 200L * chains);
    begin();
    for (uint32_t work = 0; work < works; work++) commit(chains + 1 + work, 1);
    tell("add", works > 0 ? (long)chains + works : 0);
    return 0;
}
