// The rounds of `benches disk`, by calls of the system alone: FILE ROUNDS. It makes the
// same calls in the same order (`stat` and `fstat` in place of `statx`), and differs in this: a
// short write or an interrupted call ends it, where the program goes on.
#include <fcntl.h>
#include <libgen.h>
#include <stdio.h>
#include <stdlib.h>
#include <string.h>
#include <sys/file.h>
#include <sys/stat.h>
#include <unistd.h>

enum { PAGES = 256, PAGE = 4096 };

int main(int count, char **words) {
    if (count != 3) return 2;
    static char page[PAGE];
    memset(page, 0x5a, sizeof page);
    long rounds = atol(words[2]);
    struct stat about;
    int made = stat(words[1], &about) == 0 ? 0 : O_CREAT | O_EXCL;
    int file = open(words[1], O_RDWR | made | O_CLOEXEC, 0666);
    if (file < 0 || fstat(file, &about) != 0 || !S_ISREG(about.st_mode)) return 1;
    if (flock(file, LOCK_EX | LOCK_NB) != 0) return 1;
    int folder = open(dirname(words[1]), O_RDONLY | O_CLOEXEC);
    if (folder < 0 || fsync(folder) != 0 || close(folder) != 0) return 1;
    for (long round = 0; round < rounds; round++) {
        if (pwrite(file, page, PAGE, (off_t)(round % PAGES) * PAGE) != PAGE) return 1;
        if (fdatasync(file) != 0) return 1;
    }
    if (fstat(file, &about) != 0) return 1;
    printf("%lld\n", (long long)about.st_size);
    return 0;
}
