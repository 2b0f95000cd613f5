// The device calls of a run of the program on an archive, by calls of the system alone: FILE CALLS.
// CALLS has a line for each: `sync`, `length`, `read SIZE OFFSET`, or `write SIZE OFFSET`. It makes
// them in the same order (`stat` and `fstat` in place of `statx`), prints how many microseconds
// they took, with the opening of the file, and differs in this: it writes bytes of its own, a short
// or an interrupted call ends it, and it does not look at what it reads.
#include <fcntl.h>
#include <stdint.h>
#include <stdio.h>
#include <stdlib.h>
#include <string.h>
#include <sys/file.h>
#include <sys/stat.h>
#include <time.h>
#include <unistd.h>

enum { MOST_BYTES = 65536 };

typedef struct {
    char kind;
    size_t size;
    off_t offset;
} Call;

static int file;
static unsigned char bytes[MOST_BYTES];

static void failed(const char *what) {
    fprintf(stderr, "%s failed\n", what);
    exit(1);
}

static Call call_of(const char *line) {
    Call call = {line[0], 0, 0};
    char kind[8];
    unsigned long size, offset;
    if (strcmp(line, "sync\n") == 0 || strcmp(line, "length\n") == 0) return call;
    if (sscanf(line, "%7s %lu %lu", kind, &size, &offset) != 3) failed("a line");
    if (strcmp(kind, "read") != 0 && strcmp(kind, "write") != 0) failed("a line");
    if (size > MOST_BYTES) failed("a line");
    call.size = size;
    call.offset = (off_t)offset;
    return call;
}

static Call *read_calls(const char *path, size_t *count) {
    FILE *list = fopen(path, "r");
    size_t room = 0;
    Call *calls = NULL;
    char line[64];
    if (list == NULL) failed("opening the calls");
    *count = 0;
    while (fgets(line, sizeof line, list) != NULL) {
        if (*count == room) {
            room = room == 0 ? 1024 : 2 * room;
            calls = realloc(calls, room * sizeof *calls);
            if (calls == NULL) failed("memory");
        }
        calls[(*count)++] = call_of(line);
    }
    fclose(list);
    return calls;
}

static void make(Call call) {
    struct stat about;
    ssize_t size = (ssize_t)call.size;
    switch (call.kind) {
    case 's':
        if (fdatasync(file) != 0) failed("a sync");
        break;
    case 'l':
        if (fstat(file, &about) != 0) failed("a length");
        break;
    case 'r':
        if (pread(file, bytes, call.size, call.offset) != size) failed("a read");
        break;
    default:
        if (pwrite(file, bytes, call.size, call.offset) != size) failed("a write");
    }
}

int main(int count, char **words) {
    if (count != 3) return 2;
    size_t calls_count;
    Call *calls = read_calls(words[2], &calls_count);
    struct timespec start, end;
    struct stat about;
    memset(bytes, 0x5a, sizeof bytes);
    clock_gettime(CLOCK_MONOTONIC, &start);
    if (stat(words[1], &about) != 0) failed("the file");
    file = open(words[1], O_RDWR | O_NOCTTY | O_CLOEXEC);
    if (file < 0 || flock(file, LOCK_EX | LOCK_NB) != 0) failed("opening");
    for (size_t next = 0; next < calls_count; next++) make(calls[next]);
    close(file);
    clock_gettime(CLOCK_MONOTONIC, &end);
    printf("%ld\n", (end.tv_sec - start.tv_sec) * 1000000
        + (end.tv_nsec - start.tv_nsec) / 1000);
    free(calls);
    return 0;
}
