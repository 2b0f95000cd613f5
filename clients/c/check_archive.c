/* The tests of the client, which clients/c/check.sh builds and runs: check_archive PART.. in an
 * empty folder. TUNES and TUNES_DESK name the built programs, FAKE a script that stands in their
 * place, and CASES the folder of crates/test_scripts/data. Prints what was wrong, and `sent WORD`
 * and `refused NUMBER` for what came up; ends with 1 where something was wrong. */
#define _POSIX_C_SOURCE 200809L
#define _XOPEN_SOURCE 700

#include "tunes_archive.h"

#include <dirent.h>
#include <errno.h>
#include <fcntl.h>
#include <limits.h>
#include <signal.h>
#include <stdio.h>
#include <stdlib.h>
#include <string.h>
#include <sys/resource.h>
#include <sys/stat.h>
#include <sys/time.h>
#include <sys/wait.h>
#include <time.h>
#include <unistd.h>

static int faults;
static const char *title = "";
static char sent[64][24];
static int sent_count;
static int refused[100];

static void fault_at(int line, const char *what)
{
    printf("FAILED  %s, at line %d: %s\n", title, line, what);
    faults++;
}

#define CHECK(fact)                                                                               \
    do {                                                                                           \
        if (!(fact))                                                                               \
            fault_at(__LINE__, #fact);                                                             \
    } while (0)

/* A call, of which this end is wanted. */
#define ENDS(wanted, call)                                                                         \
    do {                                                                                           \
        enum tunes_end end_ = (call);                                                              \
        if (end_ != (wanted)) {                                                                    \
            char what_[256];                                                                       \
            snprintf(what_, sizeof what_, "%s ends by %d in place of %s", #call, (int)end_,        \
                     #wanted);                                                                     \
            fault_at(__LINE__, what_);                                                             \
        }                                                                                          \
    } while (0)

static void note_sent(const char *word)
{
    for (int at = 0; at < sent_count; at++)
        if (strcmp(sent[at], word) == 0)
            return;
    if (sent_count < 64)
        snprintf(sent[sent_count++], sizeof sent[0], "%.23s", word);
}

/* A refusal that is wanted, by its number. */
static void refuses(int line, unsigned number, enum tunes_end wanted, enum tunes_end end,
                    const struct tunes_reply *reply)
{
    if (end != wanted || reply->refusal.number != number) {
        char what[128];
        snprintf(what, sizeof what, "it ends by %d with refusal %u in place of %d with %u",
                 (int)end, reply->refusal.number, (int)wanted, number);
        fault_at(line, what);
    } else if (number < 100) {
        refused[number] = 1;
    }
}

#define REFUSES(number, call) refuses(__LINE__, number, TUNES_REFUSED, call, &reply)

static double seconds_now(void)
{
    struct timespec time;
    clock_gettime(CLOCK_MONOTONIC, &time);
    return (double)time.tv_sec + (double)time.tv_nsec / 1e9;
}

static void pause_for(double seconds)
{
    double end = seconds_now() + seconds;
    while (seconds_now() < end) {
        struct timespec time = { 0, 5000000 };
        nanosleep(&time, NULL);
    }
}

static int open_descriptors(void)
{
    int count = 0;
    for (int number = 0; number < 256; number++)
        count += fcntl(number, F_GETFD) >= 0;
    return count;
}

static int descriptors_before;

static void begin_case(const char *name)
{
    title = name;
    descriptors_before = open_descriptors();
}

/* No process and no descriptor is left behind. */
static void end_case(void)
{
    CHECK(open_descriptors() == descriptors_before);
    errno = 0;
    CHECK(waitpid(-1, NULL, WNOHANG) == -1 && errno == ECHILD);
    printf("ok      %s\n", title);
    fflush(stdout);
}

static struct tunes_archive *handle(const char *path, const struct tunes_options *options)
{
    struct tunes_archive *archive = NULL;
    ENDS(TUNES_DONE, tunes_archive_open(path, options, &archive));
    if (archive == NULL)
        exit(1);
    return archive;
}

static int has_text(const struct tunes_text *text, const char *wanted)
{
    return text->start != NULL && text->length == strlen(wanted) &&
           memcmp(text->start, wanted, text->length) == 0 && text->start[text->length] == '\0';
}

/* FILES */

static char *read_file(const char *path, size_t *size)
{
    FILE *file = fopen(path, "rb");
    if (file == NULL)
        return NULL;
    fseek(file, 0, SEEK_END);
    *size = (size_t)ftell(file);
    rewind(file);
    char *bytes = malloc(*size + 1);
    if (bytes != NULL && fread(bytes, 1, *size, file) == *size)
        bytes[*size] = '\0';
    fclose(file);
    return bytes;
}

static void write_file(const char *path, const char *bytes, size_t size)
{
    FILE *file = fopen(path, "wb");
    if (file == NULL || fwrite(bytes, 1, size, file) != size || fclose(file) != 0)
        exit(1);
}

static void copy_file(const char *from, const char *to)
{
    size_t size = 0;
    char *bytes = read_file(from, &size);
    if (bytes == NULL)
        exit(1);
    write_file(to, bytes, size);
    free(bytes);
}

static void put_bytes(const char *path, long at, const char *bytes, size_t size)
{
    FILE *file = fopen(path, "r+b");
    if (file == NULL || fseek(file, at, SEEK_SET) != 0 || fwrite(bytes, 1, size, file) != size ||
        fclose(file) != 0)
        exit(1);
}

/* Bytes that grow. */
struct bytes {
    char *start;
    size_t length, room;
};

static void add(struct bytes *bytes, const char *more, size_t size)
{
    if (bytes->room - bytes->length < size + 1) {
        bytes->room = (bytes->length + size + 1) * 2;
        bytes->start = realloc(bytes->start, bytes->room);
        if (bytes->start == NULL)
            exit(1);
    }
    if (size > 0)
        memcpy(bytes->start + bytes->length, more, size);
    bytes->length += size;
    bytes->start[bytes->length] = '\0';
}

static void add_words(struct bytes *bytes, const char *words)
{
    add(bytes, words, strlen(words));
}

/* An archive without a tune, and one of the tunes of a book. */
static void make_archive(const char *path, const char *book)
{
    struct tunes_reply reply = TUNES_REPLY_NONE;
    unlink(path);
    struct tunes_archive *archive = handle(path, NULL);
    ENDS(TUNES_DONE, tunes_archive_make(archive, &reply));
    if (book != NULL)
        ENDS(TUNES_DONE, tunes_import(archive, book, strlen(book), &reply));
    tunes_archive_close(archive);
    tunes_reply_free(&reply);
}

#define KESH "X:1\nT:The Kesh Jig\nR:jig\nM:6/8\nK:G\nG3 GAB|A3 ABd|\n"
#define SHOWN "X:1\nT:The Kesh Jig\nR:jig\nM:6/8\nK:G\nG3 GAB|A3 ABd|\n"

/* FAKES: what stands in the place of the programs answers the question of the opening by FIRST,
 * reads one line, answers REPLY, and then does THEN. */

static void set_fake(const char *first, const char *reply, const char *then)
{
    unsetenv("FAKE_BEFORE");
    setenv("FAKE_FIRST", first == NULL ? "refused 4 Unknown 0\\n" : first, 1);
    setenv("FAKE_REPLY", reply, 1);
    setenv("FAKE_THEN", then, 1);
}

static struct tunes_archive *fake_handle(unsigned reply_seconds, size_t reply_bytes)
{
    const char *fake = getenv("FAKE");
    struct tunes_options options = { fake, fake, 0, reply_seconds, reply_bytes };
    return handle("a.abcx", &options);
}

/* Bytes as the words of `printf` of a shell. */
static void as_format(const char *bytes, size_t length, char *format)
{
    for (size_t at = 0; at < length; at++)
        format += sprintf(format, "\\%03o", (unsigned)(unsigned char)bytes[at]);
    *format = '\0';
}

typedef enum tunes_end question(struct tunes_archive *, struct tunes_reply *);

static enum tunes_end ask_show(struct tunes_archive *archive, struct tunes_reply *reply)
{
    return tunes_show(archive, 1, reply);
}

static enum tunes_end ask_find(struct tunes_archive *archive, struct tunes_reply *reply)
{
    return tunes_find(archive, "title", "a", reply);
}

static enum tunes_end ask_set(struct tunes_archive *archive, struct tunes_reply *reply)
{
    return tunes_set_show(archive, "a", reply);
}

static enum tunes_end ask_set_book(struct tunes_archive *archive, struct tunes_reply *reply)
{
    return tunes_export_set(archive, "a", reply);
}

static enum tunes_end ask_import(struct tunes_archive *archive, struct tunes_reply *reply)
{
    return tunes_import(archive, "X:1\nK:C\n", 8, reply);
}

/* A program that is killed after each byte of a reply, and one that ends there. */
static void killed_after_each_byte(question *ask, const char *whole)
{
    char format[2048];
    struct tunes_reply reply = TUNES_REPLY_NONE;
    for (size_t length = 0; length <= strlen(whole); length++) {
        int is_whole = length == strlen(whole);
        as_format(whole, length, format);
        set_fake(NULL, format, length % 2 == 0 ? "kill -9 $$" : "exit 0");
        struct tunes_archive *archive = fake_handle(0, 0);
        ENDS(is_whole ? TUNES_DONE : TUNES_BROKEN_OFF, ask(archive, &reply));
        CHECK(is_whole || reply.kind == TUNES_NOTHING);
        CHECK(is_whole || !tunes_archive_holds(archive, NULL));
        CHECK(is_whole || strstr(tunes_archive_message(archive), "without a whole reply") != NULL);
        if (!is_whole && length % 2 == 0)
            CHECK(strstr(tunes_archive_message(archive), "signal 9") != NULL);
        tunes_archive_close(archive);
    }
    tunes_reply_free(&reply);
}

static void test_killed(void)
{
    begin_case("programs that end after each byte of a reply");
    killed_after_each_byte(ask_show, "ok show 1 1 8\nX:1\nK:C\n");
    killed_after_each_byte(ask_find, "ok find 2\n1 a\n20\n");
    killed_after_each_byte(ask_set, "ok set-show a 2\n1 1 b\n2 1 b\n");
    killed_after_each_byte(ask_set_book, "ok export-set a 3\nabc");
    killed_after_each_byte(ask_import, "ok import 1 1\n");
    end_case();
}

static void nonsense(question *ask, const char *bytes)
{
    char format[2048];
    struct tunes_reply reply = TUNES_REPLY_NONE;
    as_format(bytes, strlen(bytes), format);
    set_fake(NULL, format, "exec cat > /dev/null");
    struct tunes_archive *archive = fake_handle(0, 0);
    enum tunes_end end = ask(archive, &reply);
    if (end != TUNES_NONSENSE) {
        char what[300];
        snprintf(what, sizeof what, "it ends by %d at %.200s", (int)end, bytes);
        fault_at(__LINE__, what);
    }
    CHECK(reply.kind == TUNES_NOTHING && reply.count == 0);
    CHECK(!tunes_archive_holds(archive, NULL));
    tunes_archive_close(archive);
    tunes_reply_free(&reply);
}

static void test_nonsense(void)
{
    static const char *const shows[] = { "hello\n", "\n", "ok\n", "ok show\n", "ok show 1 1\n",
        "ok show 2 1 8\nX:1\nK:C\n", "ok find 1\n1 a\n", "ok show 1 1 8 \nX:1\nK:C\n",
        "ok  show 1 1 8\nX:1\nK:C\n", "ok show 01 1 8\nX:1\nK:C\n", "ok show 1 1 +8\nX:1\nK:C\n",
        "ok show 1 1 99999999999999999999999999\n", "ok show 1 1 8\nX:1\nK:C\nx", "OK show 1 1 0\n",
        "ok show 1 1 8\r\nX:1\nK:C\n", "refused\n", "refused x y\n", "refused 4\n", "refused 4 \n",
        "refused 0 Nothing\n", "refused 400 Much\n", "refused 4 Unknown \n",
        "refused 4 Unknown 1\nrefused 4 Unknown 1\n", "ok show -1 1 0\n", "ok showing 1 1 0\n" };
    static const char *const finds[] = { "ok find 99999999999999999999999999\n",
        "ok find 2\n1 a\nx b\n", "ok find 1\n\n", "ok find 1\n1a\n", "ok find 0\n1 a\n",
        "ok find 1\n1000000000 a\n", "ok find 1\n 1 a\n", "ok find\n", "ok titles 0\n" };
    static const char *const sets[] = { "ok set-show b 0\n", "ok set-show a 1\n2 1 b\n",
        "ok set-show a 1\n1\n", "ok set-show a 1\n1 x\n", "ok set-show  0\n" };
    begin_case("programs that write nonsense");
    for (size_t at = 0; at < sizeof shows / sizeof shows[0]; at++)
        nonsense(ask_show, shows[at]);
    for (size_t at = 0; at < sizeof finds / sizeof finds[0]; at++)
        nonsense(ask_find, finds[at]);
    for (size_t at = 0; at < sizeof sets / sizeof sets[0]; at++)
        nonsense(ask_set, sets[at]);
    end_case();
}

/* What comes of a fake at its first question. */
static void comes_to(int line, enum tunes_end wanted, question *ask, unsigned seconds, size_t most,
                     double within)
{
    struct tunes_reply reply = TUNES_REPLY_NONE;
    double begun = seconds_now();
    struct tunes_archive *archive = fake_handle(seconds, most);
    enum tunes_end end = ask(archive, &reply);
    if (end != wanted) {
        char what[200];
        snprintf(what, sizeof what, "it ends by %d in place of %d: %.100s", (int)end, (int)wanted,
                 tunes_archive_message(archive));
        fault_at(line, what);
    }
    tunes_archive_close(archive);
    if (seconds_now() - begun > within)
        fault_at(line, "it took too long");
    tunes_reply_free(&reply);
}

#define COMES_TO(wanted, ask, seconds, most, within)                                              \
    comes_to(__LINE__, wanted, ask, seconds, most, within)

static void test_ends(void)
{
    begin_case("lines without an end, great counts, and floods");
    set_fake(NULL, "ok show 1 1 8", "exec tr '\\0' x < /dev/zero");
    COMES_TO(TUNES_NONSENSE, ask_show, 0, 0, 2);
    set_fake(NULL, "ok find 2\\n1 ", "exec tr '\\0' x < /dev/zero");
    COMES_TO(TUNES_NONSENSE, ask_find, 0, 0, 2);
    set_fake(NULL, "ok find 4000000000\\n1 a\\n", "exit 0");
    COMES_TO(TUNES_BROKEN_OFF, ask_find, 0, 0, 2);
    set_fake(NULL, "ok find 4000000000\\n", "exec yes '1 a'");
    COMES_TO(TUNES_NO_MEMORY, ask_find, 0, 3000000, 5);
    set_fake(NULL, "ok show 1 1 4000000000000\\nX:1\\n", "exit 0");
    COMES_TO(TUNES_BROKEN_OFF, ask_show, 0, 0, 2);
    set_fake(NULL, "ok show 1 1 4000000000000\\nX:1\\n", "exec sleep 1000");
    COMES_TO(TUNES_NO_MEMORY, ask_show, 0, 3000000, 2);
    set_fake(NULL, "ok export-set a 4000000\\n", "exec head -c 4000000 /dev/zero");
    COMES_TO(TUNES_DONE, ask_set_book, 0, 4000000, 5);
    set_fake(NULL, "", "head -c 1000000 /dev/zero >&2; printf 'ok find 0\\n'; exit 0");
    COMES_TO(TUNES_DONE, ask_find, 0, 0, 5);
    end_case();
    begin_case("programs that end early, or give no answer");
    set_fake("", "", "exit 0");
    COMES_TO(TUNES_BROKEN_OFF, ask_show, 0, 0, 1);
    set_fake(NULL, "", "exec >&- 2>&-; exec sleep 1000");
    COMES_TO(TUNES_BROKEN_OFF, ask_show, 0, 0, 4);
    set_fake(NULL, "", "exec sleep 1000");
    COMES_TO(TUNES_LATE, ask_show, 1, 0, 3);
    set_fake(NULL, "ok show 1 1 1000000\\n", "while :; do printf x; sleep 0.05; done");
    COMES_TO(TUNES_LATE, ask_show, 1, 0, 3);
    set_fake("hello\\n", "", "exit 0");
    COMES_TO(TUNES_NONSENSE, ask_show, 0, 0, 2);
    set_fake("refused 5 Stale 1\\n", "", "exit 0");
    COMES_TO(TUNES_NONSENSE, ask_show, 0, 0, 2);
    set_fake("refused 22 Device\\n", "", "exit 1");
    COMES_TO(TUNES_DEVICE, ask_show, 0, 0, 2);
    set_fake(NULL, "refused 22 Device\\n", "exec sleep 1000");
    COMES_TO(TUNES_DEVICE, ask_show, 0, 0, 4);
    end_case();
}

/* Whether a process runs; one that has ended, and whose status nobody took, does not. */
static int is_running(long process)
{
    char path[64], about[512] = "";
    if (kill((pid_t)process, 0) != 0)
        return 0;
    snprintf(path, sizeof path, "/proc/%ld/stat", process);
    FILE *file = fopen(path, "r");
    if (file == NULL)
        return 1;
    char *read = fgets(about, sizeof about, file);
    fclose(file);
    const char *name_end = read == NULL ? NULL : strrchr(about, ')');
    return name_end == NULL || strchr("ZX", name_end[2]) == NULL;
}

static void test_left(void)
{
    struct tunes_reply reply = TUNES_REPLY_NONE;
    size_t size = 0;
    begin_case("a program that does not end, and what it started");
    set_fake(NULL, "ok find 0\\n",
             "trap '' TERM HUP INT PIPE; sleep 1000 & echo $! > left; wait; sleep 1000");
    struct tunes_archive *archive = fake_handle(0, 0);
    ENDS(TUNES_DONE, ask_find(archive, &reply));
    pause_for(0.2);
    double begun = seconds_now();
    tunes_archive_let_go(archive);
    CHECK(seconds_now() - begun < 3);
    CHECK(!tunes_archive_holds(archive, NULL));
    char *left = read_file("left", &size);
    CHECK(left != NULL && atol(left) > 0);
    pause_for(0.1);
    CHECK(left != NULL && !is_running(atol(left)));
    free(left);
    tunes_archive_close(archive);
    end_case();
    begin_case("a program that ends, or writes, while nothing is asked");
    set_fake(NULL, "ok find 0\\n", "exit 0");
    archive = fake_handle(0, 0);
    for (int turn = 0; turn < 3; turn++) {
        ENDS(TUNES_DONE, ask_find(archive, &reply));
        pause_for(0.1);
    }
    tunes_archive_close(archive);
    set_fake(NULL, "ok find 0\\n", "sleep 0.1; printf 'ok find 0\\n'; exec sleep 1000");
    archive = fake_handle(0, 0);
    ENDS(TUNES_DONE, ask_find(archive, &reply));
    pause_for(0.4);
    ENDS(TUNES_NONSENSE, ask_find(archive, &reply));
    tunes_archive_close(archive);
    end_case();
    tunes_reply_free(&reply);
}

/* Fifteen answers, for which the buffer has to grow, and move; and fewer of them. */
static void test_fifteen(void)
{
    struct tunes_reply reply = TUNES_REPLY_NONE;
    begin_case("fifteen answers as one, and fewer");
    set_fake(NULL, "ok find 1\\n20\\n",
             "title=$(head -c 60000 /dev/zero | tr '\\0' x); number=15; "
             "while [ $number -gt 1 ]; do read -r line; "
             "printf 'ok find 2\\n%d %s%d\\n20\\n' $number $title $number; "
             "number=$((number - 1)); done; exec cat > /dev/null");
    struct tunes_archive *archive = fake_handle(0, 0);
    ENDS(TUNES_DONE, tunes_find_printed(archive, "GAB", &reply));
    CHECK(reply.kind == TUNES_FIND && reply.count == 15);
    for (size_t at = 0; at < 14 && at < reply.count; at++) {
        const struct tunes_row *row = &reply.rows[at];
        CHECK(row->number == at + 2 && row->place == 0 && row->text.start[0] == 'x');
        CHECK(strtoul(row->text.start + 60000, NULL, 10) == at + 2);
    }
    CHECK(reply.count == 15 && reply.rows[14].number == 20 && reply.rows[14].text.start == NULL);
    tunes_archive_close(archive);
    set_fake(NULL, "ok find 1\\n20\\n", "read -r line; printf 'ok find 1\\n20\\n'; exit 0");
    archive = fake_handle(0, 0);
    ENDS(TUNES_BROKEN_OFF, tunes_find_printed(archive, "GAB", &reply));
    CHECK(reply.kind == TUNES_NOTHING && reply.count == 0 && reply.rows == NULL);
    tunes_archive_close(archive);
    tunes_reply_free(&reply);
    end_case();
}

static void test_idle(void)
{
    struct tunes_reply reply = TUNES_REPLY_NONE;
    enum tunes_use use;
    begin_case("letting go after a time");
    set_fake(NULL, "ok find 0\\n", "while read -r line; do printf 'ok find 0\\n'; done");
    struct tunes_archive *archive = fake_handle(0, 0);
    tunes_archive_idle(archive, 0);
    ENDS(TUNES_DONE, ask_find(archive, &reply));
    tunes_archive_idle(archive, 1);
    CHECK(tunes_archive_holds(archive, &use) && use == TUNES_ASK);
    pause_for(0.6);
    ENDS(TUNES_DONE, ask_find(archive, &reply));
    pause_for(0.6);
    tunes_archive_idle(archive, 1);
    CHECK(tunes_archive_holds(archive, NULL));
    pause_for(0.6);
    tunes_archive_idle(archive, 1);
    CHECK(!tunes_archive_holds(archive, NULL));
    ENDS(TUNES_DONE, ask_find(archive, &reply));
    tunes_archive_idle(archive, 0);
    CHECK(!tunes_archive_holds(archive, NULL));
    tunes_archive_close(archive);
    tunes_reply_free(&reply);
    end_case();
}

static void test_no_program(void)
{
    static const char *const programs[] = { "./absent", "absent-in-every-folder", "/",
        "/dev/null" };
    struct tunes_reply reply = TUNES_REPLY_NONE;
    begin_case("programs that are not there");
    for (size_t at = 0; at < sizeof programs / sizeof programs[0]; at++) {
        struct tunes_options options = { programs[at], programs[at], 0, 0, 0 };
        struct tunes_archive *archive = handle("a.abcx", &options);
        ENDS(TUNES_NO_PROGRAM, ask_find(archive, &reply));
        ENDS(TUNES_NO_PROGRAM, ask_import(archive, &reply));
        ENDS(TUNES_NO_PROGRAM, tunes_archive_version(archive, TUNES_ASK, &reply));
        ENDS(TUNES_NO_PROGRAM, tunes_archive_check(archive, &reply));
        CHECK(*tunes_archive_message(archive) != '\0');
        tunes_archive_close(archive);
    }
    set_fake("", "", "echo not found >&2; exit 127");
    COMES_TO(TUNES_NO_PROGRAM, ask_find, 0, 0, 1);
    struct tunes_archive *none;
    ENDS(TUNES_BAD_WORD, tunes_archive_open("", NULL, &none));
    ENDS(TUNES_BAD_WORD, tunes_archive_open(NULL, NULL, &none));
    CHECK(none == NULL);
    tunes_archive_close(NULL);
    tunes_reply_free(NULL);
    tunes_reply_free(&reply);
    end_case();
}

/* Where no descriptor is free no program is started, and none is lost. */
static void test_no_descriptor(void)
{
    int taken[64], count = 0;
    struct tunes_reply reply = TUNES_REPLY_NONE;
    struct rlimit limit, usual;
    begin_case("no descriptor that is free");
    CHECK(getrlimit(RLIMIT_NOFILE, &usual) == 0);
    limit = usual;
    limit.rlim_cur = 40;
    CHECK(setrlimit(RLIMIT_NOFILE, &limit) == 0);
    set_fake(NULL, "ok find 0\\n", "exit 0");
    struct tunes_archive *archive = fake_handle(0, 0);
    for (int free = 7; free >= 0; free--) {
        while (count < 64 && (taken[count] = open("/dev/null", O_RDONLY | O_CLOEXEC)) >= 0)
            count++;
        for (int more = 0; more < free && count > 0; more++)
            close(taken[--count]);
        enum tunes_end end = ask_find(archive, &reply);
        CHECK(end == (free >= 6 ? TUNES_DONE : TUNES_SYSTEM));
        tunes_archive_let_go(archive);
    }
    while (count > 0)
        close(taken[--count]);
    CHECK(setrlimit(RLIMIT_NOFILE, &usual) == 0);
    ENDS(TUNES_DONE, ask_find(archive, &reply));
    tunes_archive_close(archive);
    tunes_reply_free(&reply);
    end_case();
}

static void test_bad_words(void)
{
    struct tunes_reply reply = TUNES_REPLY_NONE;
    char long_query[5000];
    begin_case("words that cannot be sent");
    memset(long_query, 'a', sizeof long_query - 1);
    long_query[sizeof long_query - 1] = '\0';
    set_fake("", "", "exit 0");
    struct tunes_archive *archive = fake_handle(0, 0);
    ENDS(TUNES_BAD_WORD, tunes_find(archive, "title", "a\ndelete 1", &reply));
    ENDS(TUNES_BAD_WORD, tunes_find(archive, "title", "a\r", &reply));
    ENDS(TUNES_BAD_WORD, tunes_find(archive, "title\nexport", "a", &reply));
    ENDS(TUNES_BAD_WORD, tunes_find(archive, "composer", "a", &reply));
    ENDS(TUNES_BAD_WORD, tunes_find(archive, "title", long_query, &reply));
    ENDS(TUNES_BAD_WORD, tunes_find_printed(archive, "GAB\ndelete 1", &reply));
    ENDS(TUNES_BAD_WORD, tunes_find_printed(archive, long_query, &reply));
    ENDS(TUNES_BAD_WORD, tunes_set_new(archive, "a\nb", &reply));
    ENDS(TUNES_BAD_WORD, tunes_set_new(archive, "a b", &reply));
    ENDS(TUNES_BAD_WORD, tunes_set_new(archive, "a\tb", &reply));
    ENDS(TUNES_BAD_WORD, tunes_set_new(archive, "", &reply));
    ENDS(TUNES_BAD_WORD, tunes_set_add(archive, "a 1", 1, &reply));
    ENDS(TUNES_BAD_WORD, tunes_set_cut(archive, "a\r", 1, &reply));
    ENDS(TUNES_BAD_WORD, tunes_set_drop(archive, "\n", &reply));
    ENDS(TUNES_BAD_WORD, tunes_set_show(archive, " ", &reply));
    ENDS(TUNES_BAD_WORD, tunes_export_set(archive, NULL, &reply));
    ENDS(TUNES_BAD_WORD, tunes_show(archive, 1000000000, &reply));
    ENDS(TUNES_BAD_WORD, tunes_delete(archive, ULONG_MAX, &reply));
    ENDS(TUNES_BAD_WORD, tunes_renumber(archive, 1, 1000000000, &reply));
    ENDS(TUNES_BAD_WORD, tunes_replace(archive, 1, 1000000000, "", 0, &reply));
    ENDS(TUNES_BAD_WORD, tunes_import(archive, "", 1000000000, &reply));
    ENDS(TUNES_BAD_WORD, tunes_archive_command(archive, "show 1\nshow 2", 13, NULL, 0, &reply));
    ENDS(TUNES_BAD_WORD, tunes_archive_command(archive, " \t", 2, NULL, 0, &reply));
    ENDS(TUNES_BAD_WORD, tunes_archive_command(archive, "", 0, NULL, 0, &reply));
    ENDS(TUNES_BAD_WORD, tunes_archive_command(archive, long_query, 4097, NULL, 0, &reply));
    ENDS(TUNES_BAD_WORD, tunes_archive_command(archive, "import 5", 8, "abcd", 4, &reply));
    ENDS(TUNES_BAD_WORD, tunes_archive_command(archive, "import 5 5", 10, "abcde", 5, &reply));
    ENDS(TUNES_BAD_WORD, tunes_archive_command(archive, "import 5", 8, NULL, 0, &reply));
    ENDS(TUNES_BAD_WORD, tunes_archive_command(archive, "show 5", 6, "abcde", 5, &reply));
    CHECK(!tunes_archive_holds(archive, NULL));
    CHECK(strstr(tunes_archive_message(archive), "nothing was asked") != NULL);
    tunes_archive_close(archive);
    tunes_reply_free(&reply);
    end_case();
}

/* THE BUILT PROGRAMS */

static void test_calls(void)
{
    static const char book[] = KESH "\nX:2\nK:D\nddef|\n\nX:9\nT:\nK:C\nGGAB|\n";
    struct tunes_reply reply = TUNES_REPLY_NONE;
    begin_case("each call, and what its reply has");
    unlink("calls.abcx");
    struct tunes_archive *archive = handle("calls.abcx", NULL);
    ENDS(TUNES_DONE, tunes_archive_version(archive, TUNES_ASK, &reply));
    CHECK(reply.text.length > 6 && reply.text.start[reply.text.length - 1] == '\n');
    ENDS(TUNES_DONE, tunes_archive_version(archive, TUNES_CHANGE, &reply));
    CHECK(strncmp(reply.text.start, "tunes ", 6) == 0 && reply.status == 0);
    ENDS(TUNES_DONE, tunes_archive_make(archive, &reply));
    CHECK(has_text(&reply.text, "made\n"));
    refuses(__LINE__, 42, TUNES_NO_ARCHIVE, tunes_archive_make(archive, &reply), &reply);
    ENDS(TUNES_DONE, tunes_import(archive, book, strlen(book), &reply));
    CHECK(reply.kind == TUNES_IMPORT && reply.number == 1 && reply.last == 3);
    enum tunes_use use = TUNES_ASK;
    CHECK(tunes_archive_holds(archive, &use) && use == TUNES_CHANGE);
    ENDS(TUNES_DONE, tunes_show(archive, 1, &reply));
    CHECK(reply.kind == TUNES_SHOW && reply.number == 1 && reply.revision == 1);
    CHECK(has_text(&reply.text, SHOWN));
    /* what a reply has goes into the next command, and the reply to that over it */
    ENDS(TUNES_DONE, tunes_replace(archive, 2, 1, reply.text.start, reply.text.length, &reply));
    CHECK(reply.kind == TUNES_REPLACE && reply.number == 2 && reply.revision == 2);
    ENDS(TUNES_DONE, tunes_replace(archive, 2, 2, "X:1\nT:A\nK:D\nddef|\n", 18, &reply));
    CHECK(reply.kind == TUNES_REPLACE && reply.number == 2 && reply.revision == 3);
    ENDS(TUNES_DONE, tunes_find(archive, "title", "a", &reply));
    CHECK(reply.count == 1);
    ENDS(TUNES_DONE, tunes_find(archive, "title", reply.rows[0].text.start, &reply));
    CHECK(reply.count == 1 && has_text(&reply.rows[0].text, "A"));
    ENDS(TUNES_DONE, tunes_renumber(archive, 3, 30, &reply));
    CHECK(reply.kind == TUNES_RENUMBER && reply.number == 3 && reply.last == 30);
    ENDS(TUNES_DONE, tunes_find(archive, "title", "kesh", &reply));
    CHECK(reply.kind == TUNES_FIND && reply.count == 1 && reply.rows[0].number == 1);
    CHECK(has_text(&reply.rows[0].text, "Kesh Jig, The"));
    ENDS(TUNES_DONE, tunes_find(archive, "key", "C", &reply));
    CHECK(reply.count == 1 && reply.rows[0].number == 30);
    /* an empty value is no title */
    CHECK(reply.rows[0].text.start == NULL && reply.rows[0].text.length == 0);
    ENDS(TUNES_DONE, tunes_find(archive, "rhythm", "polka", &reply));
    CHECK(reply.kind == TUNES_FIND && reply.count == 0);
    ENDS(TUNES_DONE, tunes_find(archive, "notes", "GGAB", &reply));
    CHECK(reply.count == 3 && reply.rows[1].number == 2 && reply.rows[2].number == 30);
    ENDS(TUNES_DONE, tunes_titles(archive, &reply));
    CHECK(reply.kind == TUNES_TITLES && reply.count == 2);
    CHECK(reply.rows[0].number == 2 && has_text(&reply.rows[1].text, "Kesh Jig, The"));
    ENDS(TUNES_DONE, tunes_set_new(archive, "friday", &reply));
    CHECK(reply.kind == TUNES_SET_NEW && has_text(&reply.name, "friday"));
    ENDS(TUNES_DONE, tunes_set_add(archive, "friday", 2, &reply));
    CHECK(reply.kind == TUNES_SET_ADD && has_text(&reply.name, "friday") && reply.place == 1);
    ENDS(TUNES_DONE, tunes_set_add(archive, "friday", 1, &reply));
    ENDS(TUNES_DONE, tunes_sets(archive, &reply));
    CHECK(reply.kind == TUNES_SETS && reply.count == 1 && reply.rows[0].place == 2);
    CHECK(reply.rows[0].number == 0 && has_text(&reply.rows[0].text, "friday"));
    ENDS(TUNES_DONE, tunes_set_show(archive, "friday", &reply));
    CHECK(reply.kind == TUNES_SET_SHOW && reply.count == 2 && has_text(&reply.name, "friday"));
    CHECK(reply.rows[1].place == 2 && reply.rows[1].number == 1);
    ENDS(TUNES_DONE, tunes_set_cut(archive, "friday", 1, &reply));
    CHECK(reply.kind == TUNES_SET_CUT && reply.place == 1);
    ENDS(TUNES_DONE, tunes_export_set(archive, "friday", &reply));
    CHECK(reply.kind == TUNES_EXPORT_SET);
    CHECK(has_text(&reply.text, "%abc-2.1\n% set friday\n\n" SHOWN));
    ENDS(TUNES_DONE, tunes_set_drop(archive, "friday", &reply));
    CHECK(reply.kind == TUNES_SET_DROP);
    ENDS(TUNES_DONE, tunes_delete(archive, 30, &reply));
    CHECK(reply.kind == TUNES_DELETE && reply.number == 30);
    ENDS(TUNES_DONE, tunes_export(archive, &reply));
    CHECK(has_text(&reply.text, "%abc-2.1\n\n" SHOWN "\nX:2\nT:A\nK:D\nddef|\n"));
    ENDS(TUNES_DONE, tunes_upgrade(archive, &reply));
    CHECK(reply.kind == TUNES_UPGRADE && reply.layout == 2);
    ENDS(TUNES_DONE, tunes_archive_check(archive, &reply));
    CHECK(reply.kind == TUNES_COUNTS && reply.layout == 2 && reply.count == 2 && reply.sets == 0);
    CHECK(!tunes_archive_holds(archive, NULL));
    CHECK(*tunes_archive_message(archive) == '\0');
    tunes_archive_close(archive);
    tunes_reply_free(&reply);
    end_case();
}

/* Tunes in each of the fifteen signatures, all with the same notes as printed. */
static void test_printed(void)
{
    static const char *const keys[] = { "Cb", "Gb", "Db", "Ab", "Eb", "Bb", "F", "C",
                                        "G",  "D",  "A",  "E",  "B",  "F#", "C#" };
    struct bytes book = { NULL, 0, 0 };
    struct tunes_reply reply = TUNES_REPLY_NONE, next = TUNES_REPLY_NONE;
    char tune[64];
    begin_case("opening notes as they are printed");
    for (int turn = 0; turn < 400; turn++) {
        snprintf(tune, sizeof tune, "X:1\n%s%sK:%s\n%s\n\n", turn % 3 == 0 ? "" : "T:Tune",
                 turn % 3 == 0 ? "" : "\n", keys[turn * 7 % 15],
                 turn % 5 == 0 ? "FBEADGCF" : "CDEFGABc");
        add_words(&book, tune);
    }
    make_archive("printed.abcx", book.start);
    struct tunes_archive *archive = handle("printed.abcx", NULL);
    ENDS(TUNES_DONE, tunes_find_printed(archive, "CDEFGABc", &reply));
    CHECK(reply.kind == TUNES_FIND && reply.count == 320);
    ENDS(TUNES_DONE, tunes_find_printed(archive, "FBEADG", &next));
    CHECK(next.count == 80);
    for (size_t at = 0; at < reply.count; at++) {
        unsigned long turn = at + at / 4 + 2;
        CHECK(reply.rows[at].number == turn && reply.rows[at].place == 0);
        CHECK((turn - 1) % 3 == 0 ? reply.rows[at].text.start == NULL
                                  : has_text(&reply.rows[at].text, "Tune"));
    }
    /* the same as the program itself lists */
    FILE *list = popen("\"$TUNES_DESK\" -f printed.abcx find notes FBEADG", "r");
    char line[64], wanted[64];
    for (size_t at = 0; list != NULL && at < next.count; at++) {
        const struct tunes_row *row = &next.rows[at];
        snprintf(wanted, sizeof wanted, "%lu%s%s\n", row->number, row->text.start ? " " : "",
                 row->text.start ? row->text.start : "");
        CHECK(fgets(line, sizeof line, list) != NULL && strcmp(line, wanted) == 0);
    }
    CHECK(list != NULL && fgets(line, sizeof line, list) == NULL);
    if (list != NULL)
        pclose(list);
    ENDS(TUNES_DONE, tunes_find_printed(archive, "^A=B_C,d'efg2", &reply));
    CHECK(reply.kind == TUNES_FIND && reply.count == 0);
    REFUSES(18, tunes_find_printed(archive, "G", &reply));
    CHECK(reply.count == 0 && reply.rows == NULL);
    REFUSES(18, tunes_find_printed(archive, "", &reply));
    tunes_archive_close(archive);
    tunes_reply_free(&reply);
    tunes_reply_free(&next);
    free(book.start);
    end_case();
}

static void test_refusals_of_tunes(void)
{
    struct tunes_reply reply = TUNES_REPLY_NONE;
    struct bytes book = { NULL, 0, 0 };
    begin_case("refusals of tunes and books");
    make_archive("refusals.abcx", KESH "\nX:2\nT:B\nK:D\nd\n");
    struct tunes_archive *archive = handle("refusals.abcx", NULL);
    REFUSES(1, tunes_import(archive, "hello\n", 6, &reply));
    REFUSES(1, tunes_import(archive, NULL, 0, &reply));
    REFUSES(2, tunes_import(archive, "X:1\nK:C\n\nX:2\nT:a\n", 18, &reply));
    CHECK(has_text(&reply.refusal.name, "BadTune") && reply.refusal.value == 2);
    CHECK(has_text(&reply.refusal.carried, "2 NoKey"));
    CHECK(strstr(tunes_archive_message(archive), "refused 2 BadTune 2 NoKey") != NULL);
    add_words(&book, "X:1\nK:C\n");
    while (book.length < 64100)
        add_words(&book, "abcdefgabcdefgabcdefgabcdefg|\n");
    REFUSES(2, tunes_import(archive, book.start, book.length, &reply));
    CHECK(has_text(&reply.refusal.carried, "1 TooLong"));
    REFUSES(3, tunes_replace(archive, 1, 1, "X:1\nK:C\n\nX:2\nK:C\n", 17, &reply));
    REFUSES(4, tunes_show(archive, 3, &reply));
    CHECK(reply.refusal.value == 3 && has_text(&reply.refusal.carried, "3"));
    REFUSES(4, tunes_show(archive, 999999999, &reply));
    REFUSES(5, tunes_replace(archive, 1, 7, "X:1\nK:C\n", 8, &reply));
    CHECK(reply.refusal.value == 1);
    REFUSES(7, tunes_renumber(archive, 1, 2, &reply));
    REFUSES(17, tunes_renumber(archive, 1, 0, &reply));
    REFUSES(18, tunes_find(archive, "key", "none", &reply));
    REFUSES(18, tunes_find(archive, "title", "", &reply));
    REFUSES(30, tunes_archive_command(archive, "hello", 5, NULL, 0, &reply));
    REFUSES(30, tunes_archive_command(archive, "show 1 2", 8, NULL, 0, &reply));
    REFUSES(30, tunes_archive_command(archive, "show x", 6, NULL, 0, &reply));
    REFUSES(30, tunes_archive_command(archive, "set-add", 7, NULL, 0, &reply));
    REFUSES(30, tunes_archive_command(archive, "import", 6, NULL, 0, &reply));
    book.length = 0;
    for (int tune = 0; tune < 50001; tune++)
        add_words(&book, "X:1\nK:C\n\n");
    REFUSES(9, tunes_import(archive, book.start, book.length, &reply));
    ENDS(TUNES_DONE, tunes_renumber(archive, 2, 999999, &reply));
    REFUSES(10, tunes_import(archive, "X:1\nK:C\n", 8, &reply));
    ENDS(TUNES_DONE, tunes_show(archive, 1, &reply));
    tunes_archive_close(archive);
    make_archive("worn.abcx", KESH);
    /* the revision of the tune on page 1, by docs/FILE-FORMAT.md */
    put_bytes("worn.abcx", 20486, "\x27\x0f", 2);
    archive = handle("worn.abcx", NULL);
    REFUSES(6, tunes_replace(archive, 1, 9999, "X:1\nK:C\n", 8, &reply));
    tunes_archive_close(archive);
    free(book.start);
    tunes_reply_free(&reply);
    end_case();
}

static void test_refusals_of_sets(void)
{
    struct tunes_reply reply = TUNES_REPLY_NONE;
    char name[64];
    begin_case("refusals of set lists");
    make_archive("sets.abcx", KESH);
    struct tunes_archive *archive = handle("sets.abcx", NULL);
    REFUSES(11, tunes_set_show(archive, "a", &reply));
    REFUSES(11, tunes_export_set(archive, "a", &reply));
    REFUSES(11, tunes_set_drop(archive, "a", &reply));
    REFUSES(16, tunes_set_new(archive, "a.b", &reply));
    REFUSES(16, tunes_set_new(archive, "\xff", &reply));
    for (int list = 0; list < 500; list++) {
        snprintf(name, sizeof name, "list-%d", list);
        ENDS(TUNES_DONE, tunes_set_new(archive, name, &reply));
    }
    REFUSES(12, tunes_set_new(archive, "list-0", &reply));
    REFUSES(14, tunes_set_new(archive, "list-500", &reply));
    for (int place = 0; place < 200; place++)
        ENDS(TUNES_DONE, tunes_set_add(archive, "list-7", 1, &reply));
    REFUSES(13, tunes_set_add(archive, "list-7", 1, &reply));
    REFUSES(15, tunes_set_cut(archive, "list-7", 201, &reply));
    REFUSES(8, tunes_delete(archive, 1, &reply));
    CHECK(has_text(&reply.refusal.carried, "list-7") && reply.refusal.value == 0);
    ENDS(TUNES_DONE, tunes_set_show(archive, "list-7", &reply));
    CHECK(reply.count == 200 && reply.rows[199].place == 200);
    ENDS(TUNES_DONE, tunes_sets(archive, &reply));
    CHECK(reply.count == 500);
    tunes_archive_close(archive);
    tunes_reply_free(&reply);
    end_case();
}

/* Handles that start the program `tunes` behind these words of a shell. */
static struct tunes_archive *behind(const char *path, const char *words)
{
    const char *fake = getenv("FAKE");
    struct tunes_options options = { fake, NULL, 0, 0, 0 };
    setenv("FAKE_BEFORE", words, 1);
    return handle(path, &options);
}

static void test_refusals_of_files(void)
{
    struct tunes_reply reply = TUNES_REPLY_NONE;
    char words[64];
    begin_case("refusals of files and devices");
    write_file("book.abcx", KESH, strlen(KESH));
    struct tunes_archive *archive = handle("book.abcx", NULL);
    refuses(__LINE__, 40, TUNES_NO_ARCHIVE, tunes_show(archive, 1, &reply), &reply);
    refuses(__LINE__, 40, TUNES_NO_ARCHIVE, tunes_delete(archive, 1, &reply), &reply);
    refuses(__LINE__, 40, TUNES_NO_ARCHIVE, tunes_archive_check(archive, &reply), &reply);
    refuses(__LINE__, 40, TUNES_NO_ARCHIVE,
            tunes_archive_script(archive, TUNES_ASK, "titles", 6, &reply), &reply);
    refuses(__LINE__, 40, TUNES_NO_ARCHIVE,
            tunes_archive_script(archive, TUNES_CHANGE, "titles", 6, &reply), &reply);
    tunes_archive_close(archive);
    make_archive("cut.abcx", KESH);
    CHECK(truncate("cut.abcx", 20479) == 0);
    archive = handle("cut.abcx", NULL);
    refuses(__LINE__, 41, TUNES_NO_ARCHIVE, tunes_show(archive, 1, &reply), &reply);
    refuses(__LINE__, 41, TUNES_NO_ARCHIVE, tunes_delete(archive, 1, &reply), &reply);
    tunes_archive_close(archive);
    static const char *const absent[] = { "absent.abcx", ".", "-f", "no/folder/a.abcx" };
    for (size_t at = 0; at < sizeof absent / sizeof absent[0]; at++) {
        archive = handle(absent[at], NULL);
        ENDS(TUNES_UNOPENED, tunes_show(archive, 1, &reply));
        ENDS(TUNES_UNOPENED, tunes_delete(archive, 1, &reply));
        ENDS(TUNES_UNOPENED, tunes_archive_script(archive, TUNES_CHANGE, "sets", 4, &reply));
        ENDS(TUNES_UNOPENED, tunes_archive_script(archive, TUNES_ASK, "sets", 4, &reply));
        CHECK(strstr(tunes_archive_message(archive), absent[at]) != NULL);
        tunes_archive_close(archive);
    }
    /* a disk that has no room: a file may have 200 blocks of 512 bytes */
    make_archive("full.abcx", KESH);
    archive = behind("full.abcx", "trap '' XFSZ; ulimit -f 300");
    char *book = malloc(400000);
    size_t length = 0;
    while (book != NULL && length < 390000)
        length += (size_t)sprintf(book + length, "X:1\nT:%s\nK:C\n\n", "a tune");
    refuses(__LINE__, 22, TUNES_DEVICE, tunes_import(archive, book, length, &reply), &reply);
    CHECK(strstr(tunes_archive_message(archive), "too large") != NULL);
    CHECK(strstr(tunes_archive_message(archive), "iflag=nocache") != NULL);
    CHECK(!tunes_archive_holds(archive, NULL));
    ENDS(TUNES_DEVICE, tunes_show(archive, 1, &reply));
    ENDS(TUNES_DEVICE, tunes_archive_check(archive, &reply));
    tunes_archive_close(archive);
    struct bytes script = { NULL, 0, 0 };
    archive = behind("full.abcx", "trap '' XFSZ; ulimit -f 300");
    snprintf(words, sizeof words, "import %zu\n", length);
    add_words(&script, words);
    add(&script, book, length);
    add_words(&script, "show 1\n");
    ENDS(TUNES_DONE, tunes_archive_script(archive, TUNES_CHANGE, script.start, script.length,
                                          &reply));
    /* the run ends there, so that a 23 comes of a fake alone */
    CHECK(has_text(&reply.text, "refused 22 Device\n") && reply.status == 1);
    tunes_archive_close(archive);
    set_fake(NULL, "refused 23 Closed\\n", "exit 1");
    archive = fake_handle(0, 0);
    refuses(__LINE__, 23, TUNES_DEVICE, tunes_show(archive, 1, &reply), &reply);
    tunes_archive_close(archive);
    archive = handle("full.abcx", NULL);
    ENDS(TUNES_DONE, tunes_show(archive, 1, &reply));
    CHECK(has_text(&reply.text, SHOWN));
    tunes_archive_close(archive);
    /* as little memory as an opening takes, and no more */
    int found = 0;
    for (int limit = 4000; limit < 16000 && !found; limit += 500) {
        snprintf(words, sizeof words, "ulimit -v %d", limit);
        archive = behind("full.abcx", words);
        enum tunes_end end = tunes_import(archive, script.start, 390000, &reply);
        found = end == TUNES_REFUSED && reply.refusal.number == 21;
        tunes_archive_close(archive);
    }
    CHECK(found);
    refused[21] = found;
    free(script.start);
    free(book);
    tunes_reply_free(&reply);
    end_case();
}

static void test_any_bytes(void)
{
    struct tunes_reply reply = TUNES_REPLY_NONE;
    char book[400], wanted[400];
    begin_case("texts with any bytes");
    int length = sprintf(book, "X:1\nT:a");
    for (int byte = 0; byte < 256; byte++)
        if (byte != '\n' && byte != '\r')
            book[length++] = (char)byte;
    length += sprintf(book + length, "\nK:C\nC\n");
    make_archive("bytes.abcx", NULL);
    struct tunes_archive *archive = handle("bytes.abcx", NULL);
    ENDS(TUNES_DONE, tunes_import(archive, book, (size_t)length, &reply));
    ENDS(TUNES_DONE, tunes_show(archive, 1, &reply));
    CHECK(reply.text.length == (size_t)length);
    CHECK(memcmp(reply.text.start, book, (size_t)length) == 0);
    ENDS(TUNES_DONE, tunes_titles(archive, &reply));
    CHECK(reply.count == 1 && reply.rows[0].text.length > 30);
    memcpy(wanted, "find title a\0\x01\x02", 15);
    ENDS(TUNES_DONE, tunes_archive_command(archive, wanted, 15, NULL, 0, &reply));
    CHECK(reply.count == 1);
    tunes_archive_close(archive);
    tunes_reply_free(&reply);
    end_case();
}

/* A book of 10 MB is taken, and refused; one of nearly 4,000,000 bytes goes in and comes out. */
static void test_large(void)
{
    struct tunes_reply reply = TUNES_REPLY_NONE;
    struct bytes book = { NULL, 0, 0 };
    char name[64];
    begin_case("large books");
    int tunes = 0;
    while (book.length < 3900000) {
        snprintf(name, sizeof name, "X:%d\nT:Tune %d\nK:C\n", tunes + 1, tunes + 1);
        add_words(&book, name);
        for (int line = 0; line < 60; line++)
            add_words(&book, "CDEF GABc|cBAG FEDC|CDEF GABc|cBAG FEDC|\n");
        add_words(&book, "\n");
        tunes++;
    }
    size_t small = book.length;
    make_archive("large.abcx", NULL);
    struct tunes_archive *archive = handle("large.abcx", NULL);
    ENDS(TUNES_DONE, tunes_import(archive, book.start, small, &reply));
    CHECK(reply.last == (unsigned long)tunes);
    while (book.length < 10000000)
        add_words(&book, "X:1\nK:C\nCDEFGAB\n\n");
    REFUSES(19, tunes_import(archive, book.start, book.length, &reply));
    REFUSES(19, tunes_replace(archive, 1, 1, book.start, book.length, &reply));
    ENDS(TUNES_DONE, tunes_export(archive, &reply));
    CHECK(reply.text.length == small - 1 + 10);
    CHECK(memcmp(reply.text.start + 10, book.start, small - 1) == 0);
    ENDS(TUNES_DONE, tunes_show(archive, (unsigned long)tunes, &reply));
    tunes_archive_close(archive);
    free(book.start);
    tunes_reply_free(&reply);
    end_case();
}

/* SEVERAL AT ONCE */

/* Another process that has the file for a use, and lets go after so long. */
static pid_t other_holds(const char *path, enum tunes_use use, double seconds)
{
    int ready[2];
    char byte;
    if (pipe(ready) != 0)
        exit(1);
    fflush(stdout);
    pid_t other = fork();
    if (other == 0) {
        struct tunes_archive *archive = handle(path, NULL);
        int status = tunes_archive_hold(archive, use) != TUNES_DONE;
        if (write(ready[1], "", 1) != 1)
            status = 1;
        pause_for(seconds);
        tunes_archive_close(archive);
        _exit(status);
    }
    CHECK(read(ready[0], &byte, 1) == 1);
    close(ready[0]);
    close(ready[1]);
    return other;
}

static void wait_for_other(pid_t other)
{
    int status = 1;
    CHECK(waitpid(other, &status, 0) == other && status == 0);
}

static void test_several(void)
{
    struct tunes_reply reply = TUNES_REPLY_NONE;
    struct tunes_options waiting = { NULL, NULL, 1, 0, 0 }, patient = { NULL, NULL, 10, 0, 0 };
    begin_case("several that ask, and one that changes");
    make_archive("several.abcx", KESH);
    struct tunes_archive *one = handle("several.abcx", NULL), *two = handle("several.abcx", NULL);
    struct tunes_archive *writer = handle("several.abcx", &waiting);
    ENDS(TUNES_DONE, tunes_archive_hold(one, TUNES_ASK));
    ENDS(TUNES_DONE, tunes_show(two, 1, &reply));
    ENDS(TUNES_DONE, tunes_show(one, 1, &reply));
    double begun = seconds_now();
    ENDS(TUNES_BUSY, tunes_set_new(writer, "a", &reply));
    CHECK(seconds_now() - begun > 0.9 && seconds_now() - begun < 3);
    CHECK(strstr(tunes_archive_message(writer), "another program has it") != NULL);
    ENDS(TUNES_BUSY, tunes_archive_script(writer, TUNES_CHANGE, "sets\n", 5, &reply));
    tunes_archive_let_go(one);
    ENDS(TUNES_BUSY, tunes_set_new(writer, "a", &reply));
    tunes_archive_idle(two, 0);
    ENDS(TUNES_DONE, tunes_set_new(writer, "a", &reply));
    ENDS(TUNES_BUSY, tunes_show(one, 1, &reply));
    ENDS(TUNES_BUSY, tunes_archive_script(one, TUNES_ASK, "sets\n", 5, &reply));
    ENDS(TUNES_DONE, tunes_replace(writer, 1, 1, "X:1\nT:New\nK:C\n", 14, &reply));
    tunes_archive_let_go(writer);
    ENDS(TUNES_DONE, tunes_show(one, 1, &reply));
    CHECK(reply.revision == 2 && has_text(&reply.text, "X:1\nT:New\nK:C\n"));
    tunes_archive_close(writer);
    tunes_archive_close(one);
    tunes_archive_close(two);
    end_case();
    begin_case("one that waits until another lets go");
    one = handle("several.abcx", &patient);
    for (int turn = 0; turn < 4; turn++) {
        pid_t other = other_holds("several.abcx", turn < 3 ? TUNES_CHANGE : TUNES_ASK, 0.6);
        begun = seconds_now();
        if (turn == 0)
            ENDS(TUNES_DONE, tunes_show(one, 1, &reply));
        else if (turn == 1)
            ENDS(TUNES_DONE, tunes_archive_check(one, &reply));
        else
            ENDS(TUNES_DONE, tunes_renumber(one, 1, 1, &reply));
        CHECK(seconds_now() - begun > 0.3);
        tunes_archive_let_go(one);
        wait_for_other(other);
    }
    tunes_archive_close(one);
    end_case();
    begin_case("one that is killed while it has the file");
    pid_t other = other_holds("several.abcx", TUNES_CHANGE, 100);
    kill(other, SIGKILL);
    waitpid(other, NULL, 0);
    one = handle("several.abcx", &patient);
    ENDS(TUNES_DONE, tunes_set_drop(one, "a", &reply));
    tunes_archive_close(one);
    tunes_reply_free(&reply);
    end_case();
}

/* THE HOST: streams that are closed, and signals */

/* Asks and changes, as a process may do that has no streams, or odd signals. */
static int all_goes_well(const char *path)
{
    struct tunes_reply reply = TUNES_REPLY_NONE;
    struct tunes_archive *archive = NULL;
    int well = tunes_archive_open(path, NULL, &archive) == TUNES_DONE;
    for (int turn = 0; well && turn < 3; turn++) {
        well = tunes_import(archive, KESH, strlen(KESH), &reply) == TUNES_DONE;
        unsigned long number = reply.number;
        tunes_archive_let_go(archive);
        well = well && tunes_show(archive, number, &reply) == TUNES_DONE && reply.revision == 1;
        well = well && tunes_show(archive, 999, &reply) == TUNES_REFUSED;
        well = well && tunes_archive_check(archive, &reply) == TUNES_DONE;
    }
    if (archive != NULL)
        tunes_archive_close(archive);
    tunes_reply_free(&reply);
    return well;
}

static void test_closed_streams(void)
{
    begin_case("streams 0, 1 and 2 that are closed");
    make_archive("streams.abcx", NULL);
    for (int closed = 1; closed < 8; closed++) {
        fflush(stdout);
        pid_t other = fork();
        if (other == 0) {
            for (int stream = 0; stream < 3; stream++)
                if (closed >> stream & 1)
                    close(stream);
            int well = all_goes_well("streams.abcx");
            /* and they are as closed as before */
            for (int stream = 0; stream < 3; stream++)
                well = well && ((closed >> stream & 1) == (fcntl(stream, F_GETFD) < 0));
            _exit(!well);
        }
        wait_for_other(other);
    }
    end_case();
}

static volatile sig_atomic_t alarms;

static void count_alarm(int signal_number)
{
    (void)signal_number;
    alarms++;
}

static void reap_all(int signal_number)
{
    (void)signal_number;
    int error = errno;
    while (waitpid(-1, NULL, WNOHANG) > 0)
        continue;
    errno = error;
}

static void test_signals(void)
{
    begin_case("signals of the host");
    make_archive("signals.abcx", NULL);
    for (int way = 0; way < 4; way++) {
        fflush(stdout);
        pid_t other = fork();
        if (other == 0) {
            struct itimerval often = { { 0, 500 }, { 0, 500 } };
            struct sigaction action;
            memset(&action, 0, sizeof action);
            signal(SIGPIPE, SIG_DFL);
            action.sa_handler = way == 0 ? SIG_IGN : way == 1 ? reap_all : count_alarm;
            sigaction(way < 2 ? SIGCHLD : SIGALRM, &action, NULL);
            if (way == 2)
                setitimer(ITIMER_REAL, &often, NULL);
            int well = 1;
            if (way == 3) {
                sigset_t all;
                sigfillset(&all);
                sigprocmask(SIG_SETMASK, &all, NULL);
            }
            for (int turn = 0; turn < 3; turn++)
                well = well && all_goes_well("signals.abcx");
            _exit(!well || (way == 2 && alarms < 10));
        }
        wait_for_other(other);
    }
    end_case();
    begin_case("SIGPIPE, which is not let through");
    struct tunes_reply reply = TUNES_REPLY_NONE;
    char *book = calloc(1, 3000000);
    signal(SIGPIPE, SIG_DFL);
    for (int turn = 0; turn < 10; turn++) {
        set_fake(NULL, "", turn % 2 == 0 ? "exit 0" : "exec <&-; exec sleep 0.2");
        struct tunes_archive *archive = fake_handle(0, 0);
        ENDS(TUNES_BROKEN_OFF, tunes_import(archive, book, 3000000, &reply));
        tunes_archive_close(archive);
    }
    /* an answer to what was not read yet */
    set_fake(NULL, "ok import 1 1\\n", "exec sleep 1000");
    struct tunes_archive *archive = fake_handle(0, 0);
    ENDS(TUNES_NONSENSE, tunes_import(archive, book, 3000000, &reply));
    tunes_archive_close(archive);
    free(book);
    tunes_reply_free(&reply);
    end_case();
}

/* THE SCRIPTS OF THE REPOSITORY */

static void add_number(struct bytes *bytes, unsigned long long number)
{
    char text[32];
    snprintf(text, sizeof text, " %llu", number);
    add_words(bytes, text);
}

static void add_text(struct bytes *bytes, const struct tunes_text *text)
{
    add_words(bytes, " ");
    add(bytes, text->start, text->length);
}

/* The rows of a reply as the program wrote them. */
static void add_rows(struct bytes *bytes, const struct tunes_reply *reply)
{
    for (size_t at = 0; at < reply->count; at++) {
        const struct tunes_row *row = &reply->rows[at];
        char number[48];
        if (reply->kind == TUNES_SETS) {
            add(bytes, row->text.start, row->text.length);
            add_number(bytes, row->place);
        } else {
            if (reply->kind == TUNES_SET_SHOW)
                snprintf(number, sizeof number, "%lu %lu", row->place, row->number);
            else
                snprintf(number, sizeof number, "%lu", row->number);
            add_words(bytes, number);
            if (row->text.start != NULL)
                add_text(bytes, &row->text);
        }
        add_words(bytes, "\n");
    }
}

/* A reply as the program wrote it, of what the client took out of it. */
static void add_reply(struct bytes *bytes, const struct tunes_reply *reply)
{
    static const char *const names[] = { "", "", "import", "replace", "delete", "renumber", "show",
        "find", "titles", "set-new", "set-add", "set-cut", "set-drop", "sets", "set-show",
        "export", "export-set", "upgrade" };
    enum tunes_kind kind = reply->kind;
    if (kind == TUNES_REFUSAL) {
        add_words(bytes, "refused");
        add_number(bytes, reply->refusal.number);
        add_text(bytes, &reply->refusal.name);
        if (reply->refusal.carried.length > 0)
            add_text(bytes, &reply->refusal.carried);
        add_words(bytes, "\n");
        return;
    }
    add_words(bytes, "ok ");
    add_words(bytes, kind < TUNES_COUNTS ? names[kind] : "");
    if (reply->name.start != NULL)
        add_text(bytes, &reply->name);
    if (kind >= TUNES_IMPORT && kind <= TUNES_SHOW)
        add_number(bytes, reply->number);
    if (kind == TUNES_IMPORT || kind == TUNES_RENUMBER)
        add_number(bytes, reply->last);
    if (kind == TUNES_REPLACE || kind == TUNES_SHOW)
        add_number(bytes, reply->revision);
    if (kind == TUNES_SET_ADD || kind == TUNES_SET_CUT)
        add_number(bytes, reply->place);
    if (kind == TUNES_UPGRADE)
        add_number(bytes, reply->layout);
    if (kind == TUNES_SHOW || kind == TUNES_EXPORT || kind == TUNES_EXPORT_SET)
        add_number(bytes, reply->text.length);
    if (kind == TUNES_FIND || kind == TUNES_TITLES || kind == TUNES_SETS || kind == TUNES_SET_SHOW)
        add_number(bytes, reply->count);
    add_words(bytes, "\n");
    if (reply->text.start != NULL)
        add(bytes, reply->text.start, reply->text.length);
    add_rows(bytes, reply);
}

/* The words of a line of a script, as strings; at most five. */
static int split(const char *line, size_t length, char words[5][4200])
{
    int count = 0;
    size_t at = 0;
    if (length > 0 && line[length - 1] == '\r')
        length--;
    while (at < length && count < 5) {
        while (at < length && (line[at] == ' ' || line[at] == '\t'))
            at++;
        size_t begin = at;
        while (at < length && line[at] != ' ' && line[at] != '\t')
            at++;
        if (at > begin && at - begin < 4200) {
            memcpy(words[count], line + begin, at - begin);
            words[count++][at - begin] = '\0';
        }
    }
    return count;
}

/* A number as lines have it, which is written as the client writes it. */
static int is_plain(const char *word)
{
    size_t length = strlen(word);
    return length >= 1 && length <= 9 && strspn(word, "0123456789") == length &&
           (*word != '0' || length == 1);
}

static int is_number(const char *word)
{
    size_t length = strlen(word);
    return length >= 1 && length <= 9 && strspn(word, "0123456789") == length;
}

/* Sends a line by the call that there is for it, where it is as that call writes it. */
static enum tunes_end send_line(struct tunes_archive *archive, const char *line, size_t length,
                                int count, char words[5][4200], const char *book, size_t size,
                                struct tunes_reply *reply)
{
    const char *word = words[0];
    unsigned long one = count > 1 ? strtoul(words[1], NULL, 10) : 0;
    unsigned long two = count > 2 ? strtoul(words[2], NULL, 10) : 0;
    int plain_one = count > 1 && is_plain(words[1]), plain_two = count > 2 && is_plain(words[2]);
    int is_kind = count > 1 && (strcmp(words[1], "title") == 0 || strcmp(words[1], "rhythm") == 0 ||
                                strcmp(words[1], "key") == 0 || strcmp(words[1], "notes") == 0);
    if (memchr(line, '\0', length) == NULL) {
        if (count == 2 && plain_one && strcmp(word, "import") == 0)
            return tunes_import(archive, book, size, reply);
        if (count == 4 && plain_one && plain_two && is_plain(words[3]) &&
            strcmp(word, "replace") == 0)
            return tunes_replace(archive, one, two, book, size, reply);
        if (count == 2 && plain_one && strcmp(word, "delete") == 0)
            return tunes_delete(archive, one, reply);
        if (count == 3 && plain_one && plain_two && strcmp(word, "renumber") == 0)
            return tunes_renumber(archive, one, two, reply);
        if (count == 2 && plain_one && strcmp(word, "show") == 0)
            return tunes_show(archive, one, reply);
        if (count == 3 && is_kind && strcmp(word, "find") == 0 && strchr(words[2], '\r') == NULL)
            return tunes_find(archive, words[1], words[2], reply);
        if (count == 1 && strcmp(word, "titles") == 0)
            return tunes_titles(archive, reply);
        if (count == 2 && strcmp(word, "set-new") == 0 && strchr(words[1], '\r') == NULL)
            return tunes_set_new(archive, words[1], reply);
        if (count == 3 && plain_two && strcmp(word, "set-add") == 0)
            return tunes_set_add(archive, words[1], two, reply);
        if (count == 3 && plain_two && strcmp(word, "set-cut") == 0)
            return tunes_set_cut(archive, words[1], two, reply);
        if (count == 2 && strcmp(word, "set-drop") == 0)
            return tunes_set_drop(archive, words[1], reply);
        if (count == 1 && strcmp(word, "sets") == 0)
            return tunes_sets(archive, reply);
        if (count == 2 && strcmp(word, "set-show") == 0)
            return tunes_set_show(archive, words[1], reply);
        if (count == 1 && strcmp(word, "export") == 0)
            return tunes_export(archive, reply);
        if (count == 2 && strcmp(word, "export-set") == 0)
            return tunes_export_set(archive, words[1], reply);
        if (count == 1 && strcmp(word, "upgrade") == 0)
            return tunes_upgrade(archive, reply);
    }
    return tunes_archive_command(archive, line, length, book, size, reply);
}

/* Sends a script line by line, and gives what its run would have written. A run ends at a line that
 * is too long and at a book that is cut: the client writes neither. */
static void walk(struct tunes_archive *archive, const char *script, size_t size,
                 struct bytes *replies)
{
    static char words[5][4200];
    struct tunes_reply reply = TUNES_REPLY_NONE;
    size_t at = 0;
    while (at < size) {
        const char *line = script + at;
        const char *feed = memchr(line, '\n', size - at);
        size_t length = feed == NULL ? size - at : (size_t)(feed - line);
        at += length + (feed != NULL);
        if (length > 4096) {
            ENDS(TUNES_BAD_WORD, tunes_archive_command(archive, line, length, NULL, 0, &reply));
            add_words(replies, "refused 30 BadLine\n");
            break;
        }
        /* the last line keeps its carriage return; the client ends each by a line feed */
        int count = split(line, length, words);
        int keeps = feed == NULL && length > 0 && line[length - 1] == '\r';
        size_t book = 0;
        if (count == 2 && strcmp(words[0], "import") == 0 && is_number(words[1]) && !keeps)
            book = strtoul(words[1], NULL, 10);
        if (count == 4 && strcmp(words[0], "replace") == 0 && is_number(words[1]) &&
            is_number(words[2]) && is_number(words[3]) && !keeps)
            book = strtoul(words[3], NULL, 10);
        if (book > size - at) {
            add_words(replies, "refused 30 BadLine\n");
            break;
        }
        if (count == 0 && !keeps)
            continue;
        enum tunes_end end;
        if (keeps) {
            struct bytes whole = { NULL, 0, 0 };
            add(&whole, line, length);
            add_words(&whole, "\r");
            end = tunes_archive_command(archive, whole.start, whole.length, NULL, 0, &reply);
            free(whole.start);
        } else {
            end = send_line(archive, line, length, count, words, script + at, book, &reply);
        }
        if (end != TUNES_DONE && end != TUNES_REFUSED) {
            fault_at(__LINE__, tunes_archive_message(archive));
            break;
        }
        if (end == TUNES_REFUSED && reply.refusal.number < 100)
            refused[reply.refusal.number] = 1;
        if (count > 0 && reply.refusal.number != 30)
            note_sent(words[0]);
        at += book;
        add_reply(replies, &reply);
    }
    tunes_reply_free(&reply);
}

static void compare(const char *name, const char *how, const char *bytes, size_t length,
                    const char *wanted, size_t wanted_length)
{
    if (length == wanted_length && (length == 0 || memcmp(bytes, wanted, length) == 0))
        return;
    char what[200];
    snprintf(what, sizeof what, "%.150s %.20s has other replies", name, how);
    fault_at(__LINE__, what);
}

static int run_case(const char *name, const char *empty_archive)
{
    char path[4096];
    size_t script_size = 0, wanted_size = 0;
    snprintf(path, sizeof path, "%s/%s.script", getenv("CASES"), name);
    char *script = read_file(path, &script_size);
    snprintf(path, sizeof path, "%s/%s.replies", getenv("CASES"), name);
    char *wanted = read_file(path, &wanted_size);
    if (script == NULL || wanted == NULL) {
        fault_at(__LINE__, name);
        free(script);
        free(wanted);
        return 0;
    }
    struct tunes_reply reply = TUNES_REPLY_NONE;
    copy_file(empty_archive, "case.abcx");
    struct tunes_archive *archive = handle("case.abcx", NULL);
    ENDS(TUNES_DONE, tunes_archive_script(archive, TUNES_CHANGE, script, script_size, &reply));
    compare(name, "as a script", reply.text.start, reply.text.length, wanted, wanted_size);
    copy_file(empty_archive, "case.abcx");
    struct bytes replies = { NULL, 0, 0 };
    walk(archive, script, script_size, &replies);
    compare(name, "by calls", replies.start, replies.length, wanted, wanted_size);
    tunes_archive_close(archive);
    tunes_reply_free(&reply);
    free(replies.start);
    free(script);
    free(wanted);
    return 1;
}

static int run_list(const char *list, const char *empty_archive)
{
    char path[4096], line[512];
    int count = 0;
    snprintf(path, sizeof path, "%s/%s", getenv("CASES"), list);
    FILE *file = fopen(path, "r");
    while (file != NULL && fgets(line, sizeof line, file) != NULL) {
        line[strcspn(line, " \n")] = '\0';
        count += run_case(line, empty_archive);
    }
    if (file != NULL)
        fclose(file);
    return count;
}

/* Whether a list has a line for the script of this file. */
static int is_listed(const char *list, const char *script)
{
    char path[4096], line[512];
    int found = 0;
    snprintf(path, sizeof path, "%s/%s", getenv("CASES"), list);
    FILE *file = fopen(path, "r");
    while (file != NULL && fgets(line, sizeof line, file) != NULL) {
        size_t length = strcspn(line, ":\n");
        found |= length + 7 == strlen(script) && strncmp(line, script, length) == 0;
    }
    if (file != NULL)
        fclose(file);
    return found;
}

/* How many scripts there are but for those over an archive of 2,000 tunes. */
static int script_files(void)
{
    int count = 0;
    DIR *folder = opendir(getenv("CASES"));
    for (struct dirent *entry; folder != NULL && (entry = readdir(folder)) != NULL;) {
        size_t length = strlen(entry->d_name);
        count += length > 7 && strcmp(entry->d_name + length - 7, ".script") == 0
            && !is_listed("counted", entry->d_name)
            && !is_listed("counted-of-layout-1", entry->d_name);
    }
    if (folder != NULL)
        closedir(folder);
    return count;
}

static void test_scripts(void)
{
    begin_case("the scripts of crates/test_scripts, byte for byte");
    make_archive("layout-2.abcx", NULL);
    copy_file("layout-2.abcx", "layout-1.abcx");
    /* the version of the root, as a file of layout 1 without a tune has it */
    put_bytes("layout-1.abcx", 16387, "\x01", 1);
    int count = run_list("cases", "layout-2.abcx");
    count += run_list("cases-of-layout-1", "layout-1.abcx");
    count += run_list("cases-of-layout-2", "layout-2.abcx");
    CHECK(count > 0 && count == script_files());
    end_case();
}

struct part {
    const char *name;
    void (*run)(void);
};

static const struct part parts[] = {
    { "killed", test_killed },
    { "nonsense", test_nonsense },
    { "ends", test_ends },
    { "left", test_left },
    { "fifteen", test_fifteen },
    { "idle", test_idle },
    { "no-program", test_no_program },
    { "no-descriptor", test_no_descriptor },
    { "bad-words", test_bad_words },
    { "calls", test_calls },
    { "printed", test_printed },
    { "refusals", test_refusals_of_tunes },
    { "set-refusals", test_refusals_of_sets },
    { "file-refusals", test_refusals_of_files },
    { "bytes", test_any_bytes },
    { "large", test_large },
    { "several", test_several },
    { "streams", test_closed_streams },
    { "signals", test_signals },
    { "scripts", test_scripts },
};

int main(int count, char **words)
{
    setvbuf(stdout, NULL, _IOLBF, 0);
    for (size_t at = 0; at < sizeof parts / sizeof parts[0]; at++) {
        int chosen = count < 2;
        for (int word = 1; word < count; word++)
            chosen = chosen || strcmp(words[word], parts[at].name) == 0;
        if (chosen)
            parts[at].run();
    }
    for (int at = 0; at < sent_count; at++)
        printf("sent %s\n", sent[at]);
    for (int number = 0; number < 100; number++)
        if (refused[number])
            printf("refused %d\n", number);
    return faults > 0;
}
