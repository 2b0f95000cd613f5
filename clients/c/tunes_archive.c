/* The client of tunes_archive.h. Its parts: time, memory of a reply, the program, what it says on
 * standard error, reading a reply, an exchange, openings, commands, and calls. */
#define _POSIX_C_SOURCE 200809L

#include "tunes_archive.h"

#include <errno.h>
#include <fcntl.h>
#include <limits.h>
#include <poll.h>
#include <signal.h>
#include <spawn.h>
#include <stdarg.h>
#include <stdint.h>
#include <stdio.h>
#include <stdlib.h>
#include <string.h>
#include <sys/socket.h>
#include <sys/uio.h>
#include <sys/wait.h>
#include <time.h>
#include <unistd.h>

extern char **environ;

#ifndef MSG_NOSIGNAL
#define MSG_NOSIGNAL 0 /* SO_NOSIGPIPE is set in its place */
#endif

enum {
    LINE_BYTES = 4096,           /* the longest line of a script */
    FIRST_LINE_BYTES = 512,      /* no first line of a reply is longer */
    ROW_BYTES = 70000,           /* no row is longer: a title stands in a text of 64,000 bytes */
    READ_BYTES = 65536,          /* how much is read at once, at least */
    AHEAD_BYTES = 16777216,      /* how much memory a length alone is believed */
    SAID_BYTES = 2048,           /* what is kept of standard error */
    MESSAGE_BYTES = 3072,
    MOST_LINES = 900000,         /* a run ends at its line 1,000,000 */
    PAUSE = 100,                 /* milliseconds between two tries to open a file */
    GRACE = 2000,                /* milliseconds for a program to end by itself */
    SHORT_GRACE = 200            /* the same, where it has not answered as it should */
};

#define LARGEST_NUMBER 999999999ul
#define NEVER (-1)

struct tunes_archive {
    char *path;
    char *programs[2]; /* by use */
    unsigned wait_seconds, reply_seconds;
    size_t reply_bytes;
    enum tunes_use use;
    pid_t process; /* 0: no program runs */
    int input, output, errors;
    int status; /* of the last program that ended; -1: not known */
    int failed; /* the device failed: nothing more is answered */
    unsigned long lines;
    long long last_end;
    size_t said_length;
    char said[SAID_BYTES];
    char message[MESSAGE_BYTES];
};

/* TIME, in milliseconds */

static long long now(void)
{
    struct timespec time = { 0, 0 };
    clock_gettime(CLOCK_MONOTONIC, &time);
    return (long long)time.tv_sec * 1000 + time.tv_nsec / 1000000;
}

static long long in_seconds(unsigned seconds)
{
    return now() + (long long)seconds * 1000;
}

static int is_late(long long deadline)
{
    return deadline != NEVER && now() >= deadline;
}

/* How long `poll` may wait. */
static int time_left(long long deadline)
{
    if (deadline == NEVER)
        return -1;
    long long left = deadline - now();
    return left < 0 ? 0 : left > INT_MAX ? INT_MAX : (int)left;
}

static void sleep_until(long long deadline)
{
    while (!is_late(deadline)) {
        long long left = deadline - now();
        struct timespec time = { (time_t)(left / 1000), (long)(left % 1000) * 1000000 };
        nanosleep(&time, NULL);
    }
}

/* MEMORY OF A REPLY */

/* Empties a reply, and keeps its memory. */
static void empty(struct tunes_reply *reply)
{
    struct tunes_reply kept = TUNES_REPLY_NONE;
    kept.row_memory = reply->row_memory;
    kept.row_room = reply->row_room;
    kept.bytes = reply->bytes;
    kept.room = reply->room;
    *reply = kept;
}

/* Takes the memory of a reply out of it where one of these bytes stands in it: they are to be sent,
 * and the next reply would be read over them. The caller frees it. */
static void *set_aside(struct tunes_reply *reply, const void *one, const void *other)
{
    uintptr_t begin = (uintptr_t)reply->bytes, end = begin + reply->room;
    int is_in = ((uintptr_t)one >= begin && (uintptr_t)one < end) ||
                ((uintptr_t)other >= begin && (uintptr_t)other < end);
    if (reply->bytes == NULL || !is_in)
        return NULL;
    void *aside = reply->bytes;
    reply->bytes = NULL;
    reply->room = 0;
    return aside;
}

void tunes_reply_free(struct tunes_reply *reply)
{
    if (reply == NULL)
        return;
    free(reply->bytes);
    free(reply->row_memory);
    *reply = (struct tunes_reply)TUNES_REPLY_NONE;
}

/* Makes room for so many bytes more, and a zero behind them. */
static int make_room(struct tunes_reply *reply, size_t more)
{
    if (reply->bytes != NULL && reply->room - reply->used > more)
        return 1;
    if (more > SIZE_MAX / 4 || reply->used > SIZE_MAX / 4)
        return 0;
    size_t room = reply->used + more + 1;
    char *bytes = realloc(reply->bytes, room);
    if (bytes == NULL)
        return 0;
    reply->bytes = bytes;
    reply->room = room;
    return 1;
}

static int make_row_room(struct tunes_reply *reply, size_t rows)
{
    if (rows <= reply->row_room)
        return 1;
    if (rows > SIZE_MAX / sizeof *reply->row_memory)
        return 0;
    struct tunes_row *memory = realloc(reply->row_memory, rows * sizeof *memory);
    if (memory == NULL)
        return 0;
    reply->row_memory = memory;
    reply->row_room = rows;
    return 1;
}

/* THE PROGRAM */

static void close_end(int *end)
{
    if (*end >= 0)
        close(*end);
    *end = -1;
}

/* The same file by a number above 2, so that no stream of this process is taken for it, and the
 * program can be given it as one of its own. */
static int above_streams(int end)
{
    if (end < 0 || end > STDERR_FILENO)
        return end;
    int other = fcntl(end, F_DUPFD_CLOEXEC, STDERR_FILENO + 1);
    int error = errno;
    close(end);
    errno = error;
    return other;
}

/* Two ends of a stream, which no program that is started inherits; the first does not block. They
 * are sockets: these can be written to without SIGPIPE. */
static int make_ends(int ends[2])
{
#ifdef SOCK_CLOEXEC
    int made = socketpair(AF_UNIX, SOCK_STREAM | SOCK_CLOEXEC, 0, ends);
#else
    int made = socketpair(AF_UNIX, SOCK_STREAM, 0, ends);
#endif
    if (made != 0) {
        ends[0] = ends[1] = -1;
        return 0;
    }
    ends[0] = above_streams(ends[0]);
    ends[1] = above_streams(ends[1]);
    if (ends[0] < 0 || ends[1] < 0)
        return 0;
#ifdef SO_NOSIGPIPE
    int yes = 1;
    setsockopt(ends[0], SOL_SOCKET, SO_NOSIGPIPE, &yes, sizeof yes);
#endif
    return fcntl(ends[0], F_SETFD, FD_CLOEXEC) == 0 && fcntl(ends[1], F_SETFD, FD_CLOEXEC) == 0 &&
           fcntl(ends[0], F_SETFL, O_NONBLOCK) == 0;
}

/* What a program begins with: signals as at a start, in a group of its own, so that Ctrl-C at a
 * terminal does not stop it within a change. */
static int set_attributes(posix_spawnattr_t *attributes)
{
    sigset_t none, standard;
    sigemptyset(&none);
    sigemptyset(&standard);
    sigaddset(&standard, SIGPIPE);
    sigaddset(&standard, SIGCHLD);
    short flags = POSIX_SPAWN_SETSIGMASK | POSIX_SPAWN_SETSIGDEF | POSIX_SPAWN_SETPGROUP;
    int fault = posix_spawnattr_setflags(attributes, flags);
    if (fault == 0)
        fault = posix_spawnattr_setsigmask(attributes, &none);
    if (fault == 0)
        fault = posix_spawnattr_setsigdefault(attributes, &standard);
    if (fault == 0)
        fault = posix_spawnattr_setpgroup(attributes, 0);
    return fault;
}

/* Starts a program with these streams; the fault is a number of `errno`. */
static int spawn(pid_t *process, char *const words[], const int streams[3])
{
    posix_spawn_file_actions_t actions;
    posix_spawnattr_t attributes;
    int fault = posix_spawn_file_actions_init(&actions);
    if (fault != 0)
        return fault;
    fault = posix_spawnattr_init(&attributes);
    if (fault == 0) {
        fault = set_attributes(&attributes);
        for (int stream = 0; fault == 0 && stream < 3; stream++)
            fault = posix_spawn_file_actions_adddup2(&actions, streams[stream], stream);
        if (fault == 0)
            fault = posix_spawnp(process, words[0], &actions, &attributes, words, environ);
        posix_spawnattr_destroy(&attributes);
    }
    posix_spawn_file_actions_destroy(&actions);
    return fault;
}

static enum tunes_end say(struct tunes_archive *archive, enum tunes_end end, const char *format,
                          ...)
{
    va_list values;
    va_start(values, format);
    vsnprintf(archive->message, sizeof archive->message, format, values);
    va_end(values);
    return end;
}

static enum tunes_end spawn_failed(struct tunes_archive *archive, const char *program, int fault)
{
    if (fault == ENOENT || fault == EACCES || fault == ENOTDIR || fault == ENOEXEC)
        return say(archive, TUNES_NO_PROGRAM,
                   "the program %s cannot be run: %s; install it, put it on PATH, or name it by "
                   "the variables TUNES and TUNES_DESK", program, strerror(fault));
    return say(archive, TUNES_SYSTEM, "the program %s was not started: %s", program,
               strerror(fault));
}

static enum tunes_end start(struct tunes_archive *archive, char *const words[])
{
    int ends[3][2] = { { -1, -1 }, { -1, -1 }, { -1, -1 } };
    int fault = 0;
    for (int stream = 0; fault == 0 && stream < 3; stream++)
        if (!make_ends(ends[stream]))
            fault = errno;
    if (fault == 0) {
        const int streams[3] = { ends[0][1], ends[1][1], ends[2][1] };
        fault = spawn(&archive->process, words, streams);
    }
    for (int stream = 0; stream < 3; stream++) {
        close_end(&ends[stream][1]);
        if (fault != 0)
            close_end(&ends[stream][0]);
    }
    if (fault != 0) {
        archive->process = 0;
        return spawn_failed(archive, words[0], fault);
    }
    archive->input = ends[0][0];
    archive->output = ends[1][0];
    archive->errors = ends[2][0];
    archive->said_length = 0;
    archive->status = -1;
    archive->lines = 0;
    return TUNES_DONE;
}

/* Reads standard error of the program, and keeps the first bytes of it. */
static void hear(struct tunes_archive *archive)
{
    char heard[1024];
    ssize_t count = read(archive->errors, heard, sizeof heard);
    if (count == 0 || (count < 0 && errno != EAGAIN && errno != EWOULDBLOCK && errno != EINTR))
        close_end(&archive->errors);
    if (count <= 0)
        return;
    size_t kept = sizeof archive->said - 1 - archive->said_length;
    if (kept > (size_t)count)
        kept = (size_t)count;
    memcpy(archive->said + archive->said_length, heard, kept);
    archive->said_length += kept;
}

/* Reads what the program still writes, and drops it, until it has closed its streams. */
static void drain(struct tunes_archive *archive, long long deadline)
{
    char dropped[4096];
    while ((archive->output >= 0 || archive->errors >= 0) && !is_late(deadline)) {
        struct pollfd ends[2] = { { archive->output, POLLIN, 0 }, { archive->errors, POLLIN, 0 } };
        if (poll(ends, 2, time_left(deadline)) <= 0)
            continue;
        if (ends[0].revents != 0) {
            ssize_t count = read(archive->output, dropped, sizeof dropped);
            if (count == 0 || (count < 0 && errno != EAGAIN && errno != EINTR))
                close_end(&archive->output);
        }
        if (ends[1].revents != 0)
            hear(archive);
    }
}

/* How a program is: it runs; it has ended, and its number is its own until its status is taken; or
 * it is gone, since this process does not keep a status, or something else in it took that. */
enum life { RUNS, ENDED, GONE };

static enum life life_of(const struct tunes_archive *archive)
{
    siginfo_t about;
    memset(&about, 0, sizeof about);
    if (waitid(P_PID, (id_t)archive->process, &about, WEXITED | WNOHANG | WNOWAIT) != 0)
        return errno == EINTR ? RUNS : GONE;
    return about.si_pid == 0 ? RUNS : ENDED;
}

static void take_status(struct tunes_archive *archive)
{
    int status = 0;
    pid_t found;
    do
        found = waitpid(archive->process, &status, 0);
    while (found < 0 && errno == EINTR);
    archive->status = -1;
    if (found == archive->process && WIFEXITED(status))
        archive->status = WEXITSTATUS(status);
    else if (found == archive->process && WIFSIGNALED(status))
        archive->status = 128 + WTERMSIG(status);
    archive->process = 0;
}

/* Ends the program: by the end of its input, and where it has not ended in so many milliseconds, by
 * SIGKILL. What it started itself and left is killed too. */
static void end_program(struct tunes_archive *archive, int milliseconds)
{
    if (archive->process == 0)
        return;
    long long deadline = now() + milliseconds;
    close_end(&archive->input);
    drain(archive, deadline);
    long pause = 50000;
    enum life life = life_of(archive);
    while (life == RUNS && !is_late(deadline)) {
        struct timespec time = { 0, pause };
        nanosleep(&time, NULL);
        if (pause < 10000000)
            pause *= 2;
        life = life_of(archive);
    }
    if (life == RUNS || (life == ENDED && (archive->output >= 0 || archive->errors >= 0)))
        kill(-archive->process, SIGKILL);
    take_status(archive);
    close_end(&archive->output);
    close_end(&archive->errors);
    archive->said[archive->said_length] = '\0';
}

/* WHAT IT SAYS ON STANDARD ERROR */

/* The last thing that it said of the file, behind the name of the program and the path; or the last
 * line; or nothing. */
static const char *cause(struct tunes_archive *archive)
{
    char *said = archive->said;
    size_t length = strlen(said);
    while (length > 0 && (said[length - 1] == '\n' || said[length - 1] == '\r'))
        said[--length] = '\0';
    char *line = strrchr(said, '\n');
    line = line == NULL ? said : line + 1;
    char *path = strstr(line, archive->path);
    size_t behind = strlen(archive->path);
    if (path != NULL && strncmp(path + behind, ": ", 2) == 0)
        return path + behind + 2;
    char *words = strstr(line, ": ");
    return words == NULL ? line : words + 2;
}

/* Which causes are about the path, and leave the device alone. */
static int is_of_path(const char *why)
{
    static const char *const causes[] = { "No such file", "Permission denied", "Read-only file",
        "Not a directory", "not a regular file", "Is a directory", "File name too long",
        "Too many levels of symbolic links", "Operation not permitted" };
    for (size_t number = 0; number < sizeof causes / sizeof causes[0]; number++)
        if (strstr(why, causes[number]) != NULL)
            return 1;
    return 0;
}

static enum tunes_end device_failed(struct tunes_archive *archive)
{
    const char *why = cause(archive);
    archive->failed = 1;
    return say(archive, TUNES_DEVICE,
               "%s: the device failed%s%s; see to the disk, have the system give up its cached "
               "pages of the file (unmount it, restart, or dd if=FILE iflag=nocache count=0), and "
               "only then open it again and look whether the last change took place",
               archive->path, *why == '\0' ? "" : ": ", why);
}

static enum tunes_end no_archive(struct tunes_archive *archive, struct tunes_reply *reply,
                                 unsigned number)
{
    reply->kind = TUNES_REFUSAL;
    reply->refusal.number = number;
    return say(archive, TUNES_NO_ARCHIVE, "%s: %s", archive->path, tunes_refusal_words(number));
}

static enum tunes_end broken_off(struct tunes_archive *archive)
{
    const char *why = cause(archive);
    char how[64] = "";
    if (archive->status > 128)
        snprintf(how, sizeof how, " by the signal %d", archive->status - 128);
    else if (archive->status >= 0)
        snprintf(how, sizeof how, " with status %d", archive->status);
    return say(archive, TUNES_BROKEN_OFF,
               "%s: the program ended%s without a whole reply%s%s; after a change look whether it "
               "took place", archive->path, how, *why == '\0' ? "" : ": ", why);
}

/* Why the file was not opened, by the refusal on standard output, 0 for none, by the status, and by
 * what stands on standard error. The program has ended. */
static enum tunes_end unopened(struct tunes_archive *archive, struct tunes_reply *reply,
                               unsigned refusal)
{
    const char *why = cause(archive);
    if (refusal >= 40)
        return no_archive(archive, reply, refusal);
    if (refusal == 21)
        return say(archive, TUNES_REFUSED, "%s: %s", archive->path, tunes_refusal_words(21));
    if (strstr(why, "another program has it") != NULL)
        return say(archive, TUNES_BUSY,
                   "%s: another program has it open; wait until that ends", archive->path);
    int says = strstr(why, "is no archive") != NULL || strstr(why, "is damaged") != NULL;
    if (refusal == 0 && (archive->status == 3 || (archive->status == -1 && says)))
        return no_archive(archive, reply, strstr(why, "no archive") != NULL ? 40 : 41);
    if (archive->status >= 125 && archive->status <= 127)
        return say(archive, TUNES_NO_PROGRAM, "the program cannot be run: %s", why);
    if (*why == '\0' && refusal == 0)
        return broken_off(archive);
    if (refusal == 22 ? !is_of_path(why) : strncmp(why, "the device failed", 17) == 0)
        return device_failed(archive);
    return say(archive, TUNES_UNOPENED, "%s: %s", archive->path, why);
}

/* READING A REPLY */

/* A command, and what its reply says behind `ok` and its name: n, r, l, w, p, y are `number`,
 * `revision`, `last`, `name`, `place` and `layout`; c and t say how many rows, or bytes, follow. */
struct shape {
    const char *name;
    enum tunes_kind kind;
    enum tunes_use use;
    const char *form;
};

static const struct shape shapes[] = {
    { "import", TUNES_IMPORT, TUNES_CHANGE, "nl" },
    { "replace", TUNES_REPLACE, TUNES_CHANGE, "nr" },
    { "delete", TUNES_DELETE, TUNES_CHANGE, "n" },
    { "renumber", TUNES_RENUMBER, TUNES_CHANGE, "nl" },
    { "show", TUNES_SHOW, TUNES_ASK, "nrt" },
    { "find", TUNES_FIND, TUNES_ASK, "c" },
    { "titles", TUNES_TITLES, TUNES_ASK, "c" },
    { "set-new", TUNES_SET_NEW, TUNES_CHANGE, "w" },
    { "set-add", TUNES_SET_ADD, TUNES_CHANGE, "wp" },
    { "set-cut", TUNES_SET_CUT, TUNES_CHANGE, "wp" },
    { "set-drop", TUNES_SET_DROP, TUNES_CHANGE, "w" },
    { "sets", TUNES_SETS, TUNES_ASK, "c" },
    { "set-show", TUNES_SET_SHOW, TUNES_ASK, "wc" },
    { "export", TUNES_EXPORT, TUNES_ASK, "t" },
    { "export-set", TUNES_EXPORT_SET, TUNES_ASK, "wt" },
    { "upgrade", TUNES_UPGRADE, TUNES_CHANGE, "y" },
};

/* What a reply may be: one of this shape, where there is one, about this word of the line. */
struct asked {
    const struct shape *shape;
    const char *word;
    size_t word_length;
};

/* How far a reply is read that begins at `start`. */
struct reading {
    struct asked asked;
    size_t start;
    size_t scanned;   /* up to here line feeds were looked for */
    size_t line;      /* where the line begins that is not whole */
    size_t body;      /* where what follows its first line begins; 0: that is not whole */
    char follows;     /* c: rows, t: bytes, 0: nothing */
    size_t wanted;    /* how many of them */
    size_t seen;      /* how many rows */
};

enum progress { MORE, WHOLE, BAD, NO_ROOM };

/* A part of a line that is not looked at yet. */
struct rest {
    const char *at, *end;
};

static int take(struct rest *rest, const char *text)
{
    size_t length = strlen(text);
    if ((size_t)(rest->end - rest->at) < length || memcmp(rest->at, text, length) != 0)
        return 0;
    rest->at += length;
    return 1;
}

static int take_number(struct rest *rest, size_t *number)
{
    const char *begin = rest->at;
    *number = 0;
    for (; rest->at < rest->end && *rest->at >= '0' && *rest->at <= '9'; rest->at++) {
        size_t digit = (size_t)(*rest->at - '0');
        if (*number > (SIZE_MAX - digit) / 10)
            return 0;
        *number = *number * 10 + digit;
    }
    return rest->at > begin && (*begin != '0' || rest->at == begin + 1);
}

static int take_small(struct rest *rest, unsigned long *number)
{
    size_t found;
    if (!take_number(rest, &found) || found > LARGEST_NUMBER)
        return 0;
    *number = (unsigned long)found;
    return 1;
}

static int take_word(struct rest *rest, struct tunes_text *word)
{
    const char *begin = rest->at;
    while (rest->at < rest->end && *rest->at != ' ')
        rest->at++;
    word->start = begin;
    word->length = (size_t)(rest->at - begin);
    return word->length > 0;
}

static int take_value(struct rest *rest, char form, struct tunes_reply *reply,
                      struct reading *reading)
{
    switch (form) {
    case 'n': return take_small(rest, &reply->number);
    case 'r': return take_small(rest, &reply->revision);
    case 'l': return take_small(rest, &reply->last);
    case 'p': return take_small(rest, &reply->place);
    case 'y': return take_small(rest, &reply->layout);
    case 'w': return take_word(rest, &reply->name);
    default:
        reading->follows = form;
        return take_number(rest, &reading->wanted);
    }
}

/* Whether an answer is about what was asked for, by its number or its name. */
static int fits(const struct tunes_reply *reply, const struct asked *asked)
{
    if (asked->shape->form[0] == 'w')
        return reply->name.length == asked->word_length &&
               memcmp(reply->name.start, asked->word, asked->word_length) == 0;
    if (asked->shape->form[0] != 'n' || asked->shape->kind == TUNES_IMPORT)
        return 1;
    unsigned long number = 0;
    for (size_t at = 0; at < asked->word_length; at++)
        number = number * 10 + (unsigned long)(asked->word[at] - '0');
    return reply->number == number;
}

static int take_refusal(struct rest rest, struct tunes_reply *reply)
{
    struct tunes_refusal *refusal = &reply->refusal;
    unsigned long number;
    reply->kind = TUNES_REFUSAL;
    if (!take_small(&rest, &number) || number == 0 || number > 99 || !take(&rest, " ") ||
        !take_word(&rest, &refusal->name))
        return 0;
    refusal->number = (unsigned)number;
    if (rest.at == rest.end)
        return 1;
    if (!take(&rest, " ") || rest.at == rest.end)
        return 0;
    refusal->carried.start = rest.at;
    refusal->carried.length = (size_t)(rest.end - rest.at);
    if (!take_small(&rest, &refusal->value))
        refusal->value = 0;
    return 1;
}

/* The first line of a reply, which ends before `end`. */
static int take_first_line(struct tunes_reply *reply, struct reading *reading, size_t end)
{
    struct rest rest = { reply->bytes + reading->start, reply->bytes + end };
    if (take(&rest, "refused "))
        return take_refusal(rest, reply);
    const struct shape *shape = reading->asked.shape;
    if (shape == NULL || !take(&rest, "ok ") || !take(&rest, shape->name))
        return 0;
    reply->kind = shape->kind;
    for (const char *form = shape->form; *form != '\0'; form++)
        if (!take(&rest, " ") || !take_value(&rest, *form, reply, reading))
            return 0;
    return rest.at == rest.end && fits(reply, &reading->asked);
}

static int take_row(struct rest rest, enum tunes_kind kind, size_t place, struct tunes_row *row)
{
    *row = (struct tunes_row){ 0, 0, { NULL, 0 } };
    if (kind == TUNES_SETS)
        return take_word(&rest, &row->text) && take(&rest, " ") &&
               take_small(&rest, &row->place) && rest.at == rest.end;
    if (kind == TUNES_SET_SHOW &&
        !(take_small(&rest, &row->place) && row->place == place && take(&rest, " ")))
        return 0;
    if (!take_small(&rest, &row->number))
        return 0;
    if (rest.at == rest.end)
        return 1;
    if (!take(&rest, " "))
        return 0;
    row->text.start = rest.at;
    row->text.length = (size_t)(rest.end - rest.at);
    return 1;
}

/* The rows of a reply whose bytes are all there, behind those that are told already. */
static enum progress take_rows(struct tunes_reply *reply, const struct reading *reading)
{
    if (!make_row_room(reply, reply->count + reading->wanted))
        return NO_ROOM;
    char *at = reply->bytes + reading->body;
    for (size_t place = 1; place <= reading->wanted; place++) {
        char *end = memchr(at, '\n', (size_t)(reply->bytes + reply->used - at));
        struct tunes_row *row = &reply->row_memory[reply->count];
        if (end == NULL || !take_row((struct rest){ at, end }, reply->kind, place, row))
            return BAD;
        if (row->text.start != NULL)
            ((char *)row->text.start)[row->text.length] = '\0';
        reply->count++;
        at = end + 1;
    }
    reply->rows = reply->row_memory;
    return WHOLE;
}

static void end_by_zero(struct tunes_text *text)
{
    if (text->start != NULL)
        ((char *)text->start)[text->length] = '\0';
}

/* A reply whose bytes are all there: its pointers are set, now that they stay. */
static enum progress take_whole(struct tunes_reply *reply, struct reading *reading)
{
    if (!take_first_line(reply, reading, reading->body - 1))
        return BAD;
    if (reading->follows == 't') {
        reply->text.start = reply->bytes + reading->body;
        reply->text.length = reading->wanted;
    }
    enum progress progress = reading->follows == 'c' ? take_rows(reply, reading) : WHOLE;
    end_by_zero(&reply->name);
    end_by_zero(&reply->text);
    end_by_zero(&reply->refusal.name);
    end_by_zero(&reply->refusal.carried);
    return progress;
}

/* Looks at what has come of a reply. Nothing may follow it: nothing more was asked. */
static enum progress look(struct tunes_reply *reply, struct reading *reading)
{
    while (reading->body == 0 || (reading->follows == 'c' && reading->seen < reading->wanted)) {
        char *begin = reply->bytes + reading->scanned;
        char *end = memchr(begin, '\n', reply->used - reading->scanned);
        size_t most = reading->body == 0 ? FIRST_LINE_BYTES : ROW_BYTES;
        size_t line_end = end == NULL ? reply->used : (size_t)(end - reply->bytes);
        if (line_end - reading->line > most)
            return BAD;
        reading->scanned = line_end;
        if (end == NULL)
            return MORE;
        if (reading->body == 0) {
            if (!take_first_line(reply, reading, line_end))
                return BAD;
            reading->body = line_end + 1;
        } else {
            reading->seen++;
        }
        reading->scanned = reading->line = line_end + 1;
    }
    size_t after = reply->used - (reading->follows == 't' ? reading->body : reading->scanned);
    size_t bytes = reading->follows == 't' ? reading->wanted : 0;
    return after < bytes ? MORE : after > bytes ? BAD : WHOLE;
}

/* Room for what is to be read next. It grows by doubling, and a length is believed as far as
 * `AHEAD_BYTES`, or as far as that many bytes came already. */
static int make_reading_room(const struct tunes_archive *archive, struct tunes_reply *reply,
                             const struct reading *reading)
{
    size_t read = reply->used - reading->start, most = archive->reply_bytes;
    size_t more = reply->used < READ_BYTES ? READ_BYTES : reply->used;
    if (reading->body != 0 && reading->follows == 't') {
        size_t left = reading->wanted - (reply->used - reading->body);
        if (most != 0 && reading->wanted > most)
            return 0;
        if (more < AHEAD_BYTES)
            more = AHEAD_BYTES;
        return make_room(reply, left < more ? left : more);
    }
    if (most != 0 && read > FIRST_LINE_BYTES && read - FIRST_LINE_BYTES > most)
        return 0;
    if (reply->bytes != NULL && reply->room - reply->used > READ_BYTES / 16)
        return 1;
    return make_room(reply, more);
}

/* AN EXCHANGE */

/* What is to be written, and how much of it is left. */
struct outgoing {
    struct iovec parts[3];
    int first, count;
};

static void add_part(struct outgoing *outgoing, const void *bytes, size_t size)
{
    if (size == 0)
        return;
    outgoing->parts[outgoing->count].iov_base = (void *)bytes;
    outgoing->parts[outgoing->count].iov_len = size;
    outgoing->count++;
}

/* Writes what the program takes now. Where it takes no more, nothing is left to be written: what it
 * answered, or how it ended, tells why. */
static void write_some(struct tunes_archive *archive, struct outgoing *outgoing)
{
    struct msghdr message;
    memset(&message, 0, sizeof message);
    message.msg_iov = outgoing->parts + outgoing->first;
    message.msg_iovlen = (size_t)(outgoing->count - outgoing->first);
    ssize_t count = sendmsg(archive->input, &message, MSG_NOSIGNAL);
    if (count < 0) {
        if (errno != EAGAIN && errno != EWOULDBLOCK && errno != EINTR && errno != ENOBUFS)
            outgoing->first = outgoing->count;
        return;
    }
    size_t left = (size_t)count;
    while (outgoing->first < outgoing->count) {
        struct iovec *part = &outgoing->parts[outgoing->first];
        if (left < part->iov_len) {
            part->iov_base = (char *)part->iov_base + left;
            part->iov_len -= left;
            return;
        }
        left -= part->iov_len;
        outgoing->first++;
    }
}

/* Reads once; the count is -1 where nothing was there. */
static ssize_t read_some(struct tunes_archive *archive, struct tunes_reply *reply)
{
    size_t room = reply->room - reply->used - 1;
    if (room > SSIZE_MAX)
        room = SSIZE_MAX;
    ssize_t count = read(archive->output, reply->bytes + reply->used, room);
    if (count > 0)
        reply->used += (size_t)count;
    if (count < 0 && errno != EAGAIN && errno != EWOULDBLOCK && errno != EINTR)
        return 0;
    return count;
}

/* Waits once until something can be read or written, and writes what can be. It may find nothing:
 * `*readable` tells whether there is output to read. */
static enum tunes_end wait_once(struct tunes_archive *archive, struct outgoing *outgoing,
                                long long deadline, int *readable)
{
    struct pollfd ends[3] = { { archive->output, POLLIN, 0 },
                              { archive->errors, POLLIN, 0 },
                              { archive->input, POLLOUT, 0 } };
    *readable = 0;
    if (outgoing->first == outgoing->count)
        ends[2].fd = -1;
    if (is_late(deadline))
        return TUNES_LATE;
    int found = poll(ends, 3, time_left(deadline));
    if (found <= 0)
        return found == 0 || errno == EINTR || errno == EAGAIN ? TUNES_DONE : TUNES_SYSTEM;
    if (ends[1].revents != 0)
        hear(archive);
    if (ends[2].revents != 0)
        write_some(archive, outgoing);
    *readable = ends[0].revents != 0;
    return TUNES_DONE;
}

/* Writes, and reads one reply behind what the buffer has. It may have come whole and be a refusal:
 * the end is TUNES_DONE then. After any other end the program is of no more use. */
static enum tunes_end exchange(struct tunes_archive *archive, struct outgoing *outgoing,
                               struct tunes_reply *reply, struct asked asked, long long deadline)
{
    struct reading reading = { .asked = asked, .start = reply->used, .scanned = reply->used,
                               .line = reply->used };
    for (;;) {
        int readable;
        if (!make_reading_room(archive, reply, &reading))
            return TUNES_NO_MEMORY;
        enum tunes_end end = wait_once(archive, outgoing, deadline, &readable);
        if (end != TUNES_DONE)
            return end;
        ssize_t count = readable ? read_some(archive, reply) : -1;
        if (count == 0)
            return TUNES_BROKEN_OFF;
        enum progress progress = count < 0 ? MORE : look(reply, &reading);
        if (progress == WHOLE)
            progress = take_whole(reply, &reading);
        if (progress == NO_ROOM)
            return TUNES_NO_MEMORY;
        if (progress == BAD)
            return TUNES_NONSENSE;
        if (progress == WHOLE)
            return TUNES_DONE;
    }
}

/* Ends the program where an exchange has failed, and says why. */
static enum tunes_end exchange_failed(struct tunes_archive *archive, struct tunes_reply *reply,
                                      enum tunes_end end)
{
    int error = errno;
    end_program(archive, end == TUNES_BROKEN_OFF ? GRACE : SHORT_GRACE);
    empty(reply);
    reply->status = archive->status;
    switch (end) {
    case TUNES_BROKEN_OFF: return broken_off(archive);
    case TUNES_NONSENSE:
        return say(archive, end, "%s: what the program wrote is no reply to what was asked; after "
                   "a change look whether it took place", archive->path);
    case TUNES_LATE:
        return say(archive, end, "%s: there was no reply within %u seconds, and the program was "
                   "ended; after a change look whether it took place", archive->path,
                   archive->reply_seconds);
    case TUNES_NO_MEMORY:
        return say(archive, end, "%s: there is not memory enough for the reply; after a change "
                   "look whether it took place", archive->path);
    default: return say(archive, end, "%s: %s", archive->path, strerror(error));
    }
}

static long long reply_deadline(const struct tunes_archive *archive)
{
    return archive->reply_seconds == 0 ? NEVER : in_seconds(archive->reply_seconds);
}

/* OPENINGS */

/* What an opening came to, by how it was answered: TUNES_DONE, and the program goes on. */
static enum tunes_end judge_opening(struct tunes_archive *archive, enum tunes_end end,
                                    struct tunes_reply *reply)
{
    if (end != TUNES_DONE && end != TUNES_BROKEN_OFF)
        return exchange_failed(archive, reply, end);
    unsigned refusal = end == TUNES_DONE ? reply->refusal.number : 0;
    int is_of_opening = refusal == 21 || refusal == 22 || (refusal >= 40 && refusal <= 42);
    if (refusal == 4)
        return TUNES_DONE;
    if (end == TUNES_DONE && !is_of_opening)
        return exchange_failed(archive, reply, TUNES_NONSENSE);
    end_program(archive, GRACE);
    if (end != TUNES_DONE)
        empty(reply);
    return unopened(archive, reply, refusal);
}

/* Starts the program of a use, and asks it for a tune that no archive has: it answers once it has
 * the file open. The reply is of use only where the end is not TUNES_DONE. */
static enum tunes_end open_once(struct tunes_archive *archive, enum tunes_use use,
                                struct tunes_reply *reply)
{
    char seconds[16];
    snprintf(seconds, sizeof seconds, "%u", archive->wait_seconds);
    char *const to_ask[] = { archive->programs[use], "-f", archive->path, "--wait", seconds, "ask",
                             NULL };
    char *const to_change[] = { archive->programs[use], "run", archive->path, NULL };
    static const struct asked nothing = { NULL, NULL, 0 };
    struct outgoing outgoing = { .count = 0 };
    add_part(&outgoing, "show 0\n", 7);
    enum tunes_end end = start(archive, use == TUNES_ASK ? to_ask : to_change);
    if (end != TUNES_DONE)
        return end;
    archive->use = use;
    long long deadline = reply_deadline(archive);
    if (deadline != NEVER && use == TUNES_ASK)
        deadline += (long long)archive->wait_seconds * 1000;
    empty(reply);
    end = judge_opening(archive, exchange(archive, &outgoing, reply, nothing, deadline), reply);
    if (end == TUNES_DONE)
        empty(reply);
    return end;
}

/* The same, and tries again while another program has the file. `tunes-desk` waits by itself. */
static enum tunes_end open_file(struct tunes_archive *archive, enum tunes_use use,
                                struct tunes_reply *reply)
{
    long long deadline = in_seconds(archive->wait_seconds);
    for (;;) {
        enum tunes_end end = open_once(archive, use, reply);
        if (end != TUNES_BUSY || use == TUNES_ASK || is_late(deadline))
            return end;
        empty(reply);
        sleep_until(now() + PAUSE);
    }
}

/* Whether the program that runs may be asked. One that has ended while nothing was asked is as one
 * that was let go. What it writes then is no reply. */
static enum tunes_end look_after(struct tunes_archive *archive, struct tunes_reply *reply)
{
    char stray;
    ssize_t count = read(archive->output, &stray, 1);
    if (count > 0)
        return exchange_failed(archive, reply, TUNES_NONSENSE);
    if (count == 0 || (errno != EAGAIN && errno != EWOULDBLOCK && errno != EINTR))
        end_program(archive, GRACE);
    return TUNES_DONE;
}

static enum tunes_end open_for(struct tunes_archive *archive, enum tunes_use use,
                               struct tunes_reply *reply)
{
    if (archive->failed)
        return say(archive, TUNES_DEVICE, "%s: the device failed in an earlier call; close the "
                   "handle, and see to the disk before the file is opened again", archive->path);
    if (archive->process != 0 &&
        ((use == TUNES_CHANGE && archive->use == TUNES_ASK) || archive->lines >= MOST_LINES))
        end_program(archive, GRACE);
    if (archive->process != 0) {
        enum tunes_end end = look_after(archive, reply);
        if (end != TUNES_DONE)
            return end;
    }
    return archive->process != 0 ? TUNES_DONE : open_file(archive, use, reply);
}

/* COMMANDS */

/* A line without its line feed, and the book behind it. */
struct request {
    const char *line;
    size_t length;
    const void *book;
    size_t size;
};

static enum tunes_end begin(struct tunes_archive *archive, struct tunes_reply *reply)
{
    archive->message[0] = '\0';
    empty(reply);
    return TUNES_DONE;
}

static int is_blank(char byte)
{
    return byte == ' ' || byte == '\t';
}

/* The first words of a line, and how many it has. */
static size_t words_of(const char *line, size_t length, struct tunes_text words[4])
{
    size_t count = 0, at = 0;
    if (length > 0 && line[length - 1] == '\r')
        length--;
    while (at < length) {
        while (at < length && is_blank(line[at]))
            at++;
        size_t begin = at;
        while (at < length && !is_blank(line[at]))
            at++;
        if (at > begin && count < 4)
            words[count] = (struct tunes_text){ line + begin, at - begin };
        count += at > begin;
    }
    return count;
}

static int is_number(const struct tunes_text *word, size_t *number)
{
    *number = 0;
    for (size_t at = 0; at < word->length; at++) {
        if (word->start[at] < '0' || word->start[at] > '9')
            return 0;
        *number = *number * 10 + (size_t)(word->start[at] - '0');
    }
    return word->length >= 1 && word->length <= 9;
}

/* How many bytes the program will take for the book of a line, by the rules of scripts. */
static size_t book_size(const struct shape *shape, const struct tunes_text words[4], size_t count)
{
    size_t size = 0, other;
    if (shape == NULL || (shape->kind != TUNES_IMPORT && shape->kind != TUNES_REPLACE))
        return 0;
    size_t wanted = shape->kind == TUNES_IMPORT ? 2 : 4;
    if (count != wanted || !is_number(&words[wanted - 1], &size))
        return 0;
    if (wanted == 4 && !(is_number(&words[1], &other) && is_number(&words[2], &other)))
        return 0;
    return size;
}

static const struct shape *shape_of(const struct tunes_text *word)
{
    for (size_t number = 0; number < sizeof shapes / sizeof shapes[0]; number++)
        if (strlen(shapes[number].name) == word->length &&
            memcmp(shapes[number].name, word->start, word->length) == 0)
            return &shapes[number];
    return NULL;
}

/* What a whole reply says: TUNES_DONE, or why the command was refused. */
static enum tunes_end judge(struct tunes_archive *archive, struct tunes_reply *reply)
{
    if (reply->kind != TUNES_REFUSAL)
        return TUNES_DONE;
    unsigned number = reply->refusal.number;
    if (number == 22 || number == 23) {
        end_program(archive, GRACE);
        return device_failed(archive);
    }
    const struct tunes_text *carried = &reply->refusal.carried;
    return say(archive, TUNES_REFUSED, "%s: refused %u %s%s%s: %s", archive->path, number,
               reply->refusal.name.start, carried->length == 0 ? "" : " ",
               carried->length == 0 ? "" : carried->start, tunes_refusal_words(number));
}

/* Asks the program that has the file a line whose form is checked, and reads its reply behind what
 * the buffer has. */
static enum tunes_end talk(struct tunes_archive *archive, const struct request *request,
                           const struct asked *asked, struct tunes_reply *reply)
{
    struct outgoing outgoing = { .count = 0 };
    add_part(&outgoing, request->line, request->length);
    add_part(&outgoing, "\n", 1);
    add_part(&outgoing, request->book, request->size);
    archive->lines++;
    enum tunes_end end = exchange(archive, &outgoing, reply, *asked, reply_deadline(archive));
    /* what is answered before it was taken whole is no answer to it, but where the device failed */
    if (end == TUNES_DONE && outgoing.first < outgoing.count && reply->refusal.number != 22)
        end = TUNES_NONSENSE;
    end = end == TUNES_DONE ? judge(archive, reply) : exchange_failed(archive, reply, end);
    archive->last_end = now();
    return end;
}

static enum tunes_end carry_out(struct tunes_archive *archive, const struct request *request,
                                const struct asked *asked, struct tunes_reply *reply)
{
    void *aside = set_aside(reply, request->line, request->book);
    enum tunes_use use = asked->shape == NULL ? TUNES_ASK : asked->shape->use;
    enum tunes_end end = open_for(archive, use, reply);
    if (end == TUNES_DONE)
        end = talk(archive, request, asked, reply);
    free(aside);
    return end;
}

static enum tunes_end bad_word(struct tunes_archive *archive, const char *why)
{
    return say(archive, TUNES_BAD_WORD, "%s: nothing was asked: %s", archive->path, why);
}

static enum tunes_end command(struct tunes_archive *archive, const struct request *request,
                              struct tunes_reply *reply)
{
    struct tunes_text words[4] = { { NULL, 0 } };
    if (request->length > LINE_BYTES)
        return bad_word(archive, "the line has more than 4,096 bytes");
    if (memchr(request->line, '\n', request->length) != NULL)
        return bad_word(archive, "a word has a line break");
    size_t count = words_of(request->line, request->length, words), number;
    if (count == 0)
        return bad_word(archive, "the line has no word");
    struct asked asked = { shape_of(&words[0]), words[1].start, words[1].length };
    if (request->size != book_size(asked.shape, words, count))
        return bad_word(archive, "the line tells of a book of another size");
    /* a line that is no command has no answer but a refusal */
    if (asked.shape != NULL && asked.shape->form[0] == 'n' && !is_number(&words[1], &number))
        asked.shape = NULL;
    return carry_out(archive, request, &asked, reply);
}

/* A line by a format, whose texts have been looked at, and a book behind it. */
static enum tunes_end command_of(struct tunes_archive *archive, const void *book, size_t size,
                                 struct tunes_reply *reply, const char *format, ...)
{
    char line[LINE_BYTES + 2];
    va_list values;
    va_start(values, format);
    int length = vsnprintf(line, sizeof line, format, values);
    va_end(values);
    if (length < 0 || length > LINE_BYTES)
        return bad_word(archive, "the line has more than 4,096 bytes");
    struct request request = { line, (size_t)length, book, size };
    return command(archive, &request, reply);
}

static int has_break(const char *text)
{
    return strpbrk(text, "\n\r") != NULL;
}

/* Whether a name can stand as a word of a line; else this is said. */
static int is_word(struct tunes_archive *archive, const char *name)
{
    if (name != NULL && *name != '\0' && strpbrk(name, " \t\n\r") == NULL)
        return 1;
    bad_word(archive, "a set list is named by 1 to 40 letters, digits, - and _");
    return 0;
}

static int is_sendable(struct tunes_archive *archive, unsigned long number)
{
    if (number <= LARGEST_NUMBER)
        return 1;
    bad_word(archive, "a number has at most nine digits");
    return 0;
}

/* CALLS */

static char *copy(const char *first, const char *second)
{
    size_t length = strlen(first), more = strlen(second);
    char *made = malloc(length + more + 1);
    if (made != NULL) {
        memcpy(made, first, length);
        memcpy(made + length, second, more + 1);
    }
    return made;
}

static char *program_of(const char *told, const char *variable, const char *name)
{
    if (told == NULL || *told == '\0')
        told = getenv(variable);
    return copy("", told == NULL || *told == '\0' ? name : told);
}

enum tunes_end tunes_archive_open(const char *path, const struct tunes_options *options,
                                  struct tunes_archive **archive)
{
    static const struct tunes_options usual = { NULL, NULL, 0, 0, 0 };
    *archive = NULL;
    if (path == NULL || *path == '\0')
        return TUNES_BAD_WORD;
    struct tunes_archive *made = calloc(1, sizeof *made);
    if (made == NULL)
        return TUNES_NO_MEMORY;
    if (options == NULL)
        options = &usual;
    made->input = made->output = made->errors = -1;
    made->wait_seconds = options->wait_seconds > 999999 ? 999999 : options->wait_seconds;
    made->reply_seconds = options->reply_seconds;
    made->reply_bytes = options->reply_bytes;
    /* a path that looks like an option is told by its folder */
    made->path = copy(*path == '-' ? "./" : "", path);
    made->programs[TUNES_ASK] = program_of(options->tunes_desk, "TUNES_DESK", "tunes-desk");
    made->programs[TUNES_CHANGE] = program_of(options->tunes, "TUNES", "tunes");
    if (made->path == NULL || made->programs[0] == NULL || made->programs[1] == NULL) {
        tunes_archive_close(made);
        return TUNES_NO_MEMORY;
    }
    *archive = made;
    return TUNES_DONE;
}

void tunes_archive_close(struct tunes_archive *archive)
{
    if (archive == NULL)
        return;
    int error = errno;
    end_program(archive, GRACE);
    free(archive->path);
    free(archive->programs[0]);
    free(archive->programs[1]);
    free(archive);
    errno = error;
}

const char *tunes_archive_message(const struct tunes_archive *archive)
{
    return archive->message;
}

enum tunes_end tunes_archive_hold(struct tunes_archive *archive, enum tunes_use use)
{
    struct tunes_reply reply = TUNES_REPLY_NONE;
    begin(archive, &reply);
    enum tunes_end end = open_for(archive, use, &reply);
    archive->last_end = now();
    tunes_reply_free(&reply);
    return end;
}

void tunes_archive_let_go(struct tunes_archive *archive)
{
    end_program(archive, GRACE);
}

void tunes_archive_idle(struct tunes_archive *archive, unsigned seconds)
{
    if (archive->process != 0 && now() - archive->last_end >= (long long)seconds * 1000)
        end_program(archive, GRACE);
}

int tunes_archive_holds(const struct tunes_archive *archive, enum tunes_use *use)
{
    if (use != NULL)
        *use = archive->use;
    return archive->process != 0;
}

enum tunes_end tunes_show(struct tunes_archive *archive, unsigned long number,
                          struct tunes_reply *reply)
{
    begin(archive, reply);
    if (!is_sendable(archive, number))
        return TUNES_BAD_WORD;
    return command_of(archive, NULL, 0, reply, "show %lu", number);
}

enum tunes_end tunes_find(struct tunes_archive *archive, const char *kind, const char *query,
                          struct tunes_reply *reply)
{
    begin(archive, reply);
    if (strcmp(kind, "title") != 0 && strcmp(kind, "rhythm") != 0 && strcmp(kind, "key") != 0 &&
        strcmp(kind, "notes") != 0)
        return bad_word(archive, "tunes are found by title, rhythm, key or notes");
    if (has_break(query))
        return bad_word(archive, "a query has a line break");
    return command_of(archive, NULL, 0, reply, "find %s %s", kind, query);
}

static int by_number(const void *one, const void *other)
{
    const struct tunes_row *row = one, *next = other;
    return (row->number > next->number) - (row->number < next->number);
}

/* One of the questions of `tunes_find_printed`. Its rows come behind those that there are, and the
 * buffer may move with the next, so `place` keeps where their titles are, counted from 1. */
static enum tunes_end find_in_key(struct tunes_archive *archive, const char *key,
                                  const char *notes, struct tunes_reply *reply)
{
    static const struct tunes_text find = { "find", 4 };
    char line[LINE_BYTES + 2];
    size_t from = reply->count;
    int length = snprintf(line, sizeof line, "find notes [K:%s]%s", key, notes);
    struct request request = { line, (size_t)length, NULL, 0 };
    struct asked asked = { shape_of(&find), NULL, 0 };
    enum tunes_end end = talk(archive, &request, &asked, reply);
    if (end != TUNES_DONE) {
        reply->count = 0;
        reply->rows = NULL;
        return end;
    }
    for (size_t at = from; at < reply->count; at++) {
        const char *title = reply->row_memory[at].text.start;
        reply->row_memory[at].place =
            title == NULL ? 0 : (unsigned long)(title - reply->bytes) + 1;
    }
    return TUNES_DONE;
}

/* Leaves each tune once, by number, and sets the pointers of the titles. */
static void merge(struct tunes_reply *reply)
{
    struct tunes_row *rows = reply->row_memory;
    size_t kept = 0;
    if (reply->count > 1)
        qsort(rows, reply->count, sizeof *rows, by_number);
    for (size_t at = 0; at < reply->count; at++) {
        if (kept > 0 && rows[kept - 1].number == rows[at].number)
            continue;
        rows[kept] = rows[at];
        if (rows[kept].place != 0)
            rows[kept].text.start = reply->bytes + rows[kept].place - 1;
        rows[kept].place = 0;
        kept++;
    }
    reply->count = kept;
    reply->rows = rows;
}

enum tunes_end tunes_find_printed(struct tunes_archive *archive, const char *notes,
                                  struct tunes_reply *reply)
{
    static const char *const keys[] = { "Cb", "Gb", "Db", "Ab", "Eb", "Bb", "F", "C",
                                        "G",  "D",  "A",  "E",  "B",  "F#", "C#" };
    begin(archive, reply);
    if (has_break(notes))
        return bad_word(archive, "a query has a line break");
    if (strlen(notes) > LINE_BYTES - 16)
        return bad_word(archive, "the line has more than 4,096 bytes");
    void *aside = set_aside(reply, notes, NULL);
    enum tunes_end end = open_for(archive, TUNES_ASK, reply);
    for (size_t at = 0; end == TUNES_DONE && at < sizeof keys / sizeof keys[0]; at++)
        end = find_in_key(archive, keys[at], notes, reply);
    free(aside);
    if (end == TUNES_DONE)
        merge(reply);
    return end;
}

enum tunes_end tunes_titles(struct tunes_archive *archive, struct tunes_reply *reply)
{
    begin(archive, reply);
    return command_of(archive, NULL, 0, reply, "titles");
}

enum tunes_end tunes_sets(struct tunes_archive *archive, struct tunes_reply *reply)
{
    begin(archive, reply);
    return command_of(archive, NULL, 0, reply, "sets");
}

enum tunes_end tunes_set_show(struct tunes_archive *archive, const char *name,
                              struct tunes_reply *reply)
{
    begin(archive, reply);
    if (!is_word(archive, name))
        return TUNES_BAD_WORD;
    return command_of(archive, NULL, 0, reply, "set-show %s", name);
}

enum tunes_end tunes_export(struct tunes_archive *archive, struct tunes_reply *reply)
{
    begin(archive, reply);
    return command_of(archive, NULL, 0, reply, "export");
}

enum tunes_end tunes_export_set(struct tunes_archive *archive, const char *name,
                                struct tunes_reply *reply)
{
    begin(archive, reply);
    if (!is_word(archive, name))
        return TUNES_BAD_WORD;
    return command_of(archive, NULL, 0, reply, "export-set %s", name);
}

enum tunes_end tunes_import(struct tunes_archive *archive, const void *book, size_t size,
                            struct tunes_reply *reply)
{
    begin(archive, reply);
    if (size > LARGEST_NUMBER)
        return bad_word(archive, "the book has more than 999,999,999 bytes");
    return command_of(archive, book, size, reply, "import %lu", (unsigned long)size);
}

enum tunes_end tunes_replace(struct tunes_archive *archive, unsigned long number,
                             unsigned long revision, const void *book, size_t size,
                             struct tunes_reply *reply)
{
    begin(archive, reply);
    if (!is_sendable(archive, number) || !is_sendable(archive, revision))
        return TUNES_BAD_WORD;
    if (size > LARGEST_NUMBER)
        return bad_word(archive, "the book has more than 999,999,999 bytes");
    return command_of(archive, book, size, reply, "replace %lu %lu %lu", number, revision,
                      (unsigned long)size);
}

enum tunes_end tunes_delete(struct tunes_archive *archive, unsigned long number,
                            struct tunes_reply *reply)
{
    begin(archive, reply);
    if (!is_sendable(archive, number))
        return TUNES_BAD_WORD;
    return command_of(archive, NULL, 0, reply, "delete %lu", number);
}

enum tunes_end tunes_renumber(struct tunes_archive *archive, unsigned long number,
                              unsigned long to, struct tunes_reply *reply)
{
    begin(archive, reply);
    if (!is_sendable(archive, number) || !is_sendable(archive, to))
        return TUNES_BAD_WORD;
    return command_of(archive, NULL, 0, reply, "renumber %lu %lu", number, to);
}

enum tunes_end tunes_set_new(struct tunes_archive *archive, const char *name,
                             struct tunes_reply *reply)
{
    begin(archive, reply);
    if (!is_word(archive, name))
        return TUNES_BAD_WORD;
    return command_of(archive, NULL, 0, reply, "set-new %s", name);
}

enum tunes_end tunes_set_add(struct tunes_archive *archive, const char *name, unsigned long number,
                             struct tunes_reply *reply)
{
    begin(archive, reply);
    if (!is_word(archive, name) || !is_sendable(archive, number))
        return TUNES_BAD_WORD;
    return command_of(archive, NULL, 0, reply, "set-add %s %lu", name, number);
}

enum tunes_end tunes_set_cut(struct tunes_archive *archive, const char *name, unsigned long place,
                             struct tunes_reply *reply)
{
    begin(archive, reply);
    if (!is_word(archive, name) || !is_sendable(archive, place))
        return TUNES_BAD_WORD;
    return command_of(archive, NULL, 0, reply, "set-cut %s %lu", name, place);
}

enum tunes_end tunes_set_drop(struct tunes_archive *archive, const char *name,
                              struct tunes_reply *reply)
{
    begin(archive, reply);
    if (!is_word(archive, name))
        return TUNES_BAD_WORD;
    return command_of(archive, NULL, 0, reply, "set-drop %s", name);
}

enum tunes_end tunes_upgrade(struct tunes_archive *archive, struct tunes_reply *reply)
{
    begin(archive, reply);
    return command_of(archive, NULL, 0, reply, "upgrade");
}

enum tunes_end tunes_archive_command(struct tunes_archive *archive, const char *line,
                                     size_t length, const void *book, size_t size,
                                     struct tunes_reply *reply)
{
    struct request request = { line, length, book, size };
    begin(archive, reply);
    return command(archive, &request, reply);
}

/* WHOLE RUNS */

/* Writes all, and reads to the end of the output: TUNES_DONE, and the program has ended. */
static enum tunes_end exchange_all(struct tunes_archive *archive, struct outgoing *outgoing,
                                   struct tunes_reply *reply)
{
    long long deadline = reply_deadline(archive);
    static const struct reading nothing = { .start = 0 };
    for (;;) {
        int readable;
        if (outgoing->first == outgoing->count)
            close_end(&archive->input);
        if (!make_reading_room(archive, reply, &nothing))
            return exchange_failed(archive, reply, TUNES_NO_MEMORY);
        enum tunes_end end = wait_once(archive, outgoing, deadline, &readable);
        if (end != TUNES_DONE)
            return exchange_failed(archive, reply, end);
        if (readable && read_some(archive, reply) == 0)
            break;
    }
    end_program(archive, GRACE);
    reply->kind = TUNES_OUTPUT;
    reply->status = archive->status;
    reply->text = (struct tunes_text){ reply->bytes, reply->used };
    reply->bytes[reply->used] = '\0';
    return TUNES_DONE;
}

/* Whether the output of a run is this alone. */
static int wrote(const struct tunes_reply *reply, const char *line)
{
    return reply->used == strlen(line) && memcmp(reply->bytes, line, reply->used) == 0;
}

/* The refusal by which a file was not opened, where the run says so; 0 where it says nothing, and
 * -1 where the file was opened. */
static int refusal_of_opening(struct tunes_archive *archive, const struct tunes_reply *reply)
{
    static const char *const lines[] = { "refused 40 NotArchive\n", "refused 41 Damaged\n",
                                         "refused 42 NotEmpty\n" };
    for (int number = 0; number < 3; number++)
        if (wrote(reply, lines[number]) && (archive->status == 3 || archive->status == -1))
            return 40 + number;
    const char *why = cause(archive);
    if (wrote(reply, "refused 22 Device\n") &&
        (is_of_path(why) || strstr(why, "another program has it") != NULL))
        return 22;
    int is_silent = reply->used == 0 && archive->status != 0;
    return is_silent && (archive->status > 0 || *why != '\0') ? 0 : -1;
}

/* Runs a program once, over a script. */
static enum tunes_end run_once(struct tunes_archive *archive, char *const words[],
                               const void *script, size_t size, struct tunes_reply *reply)
{
    struct outgoing outgoing = { .count = 0 };
    add_part(&outgoing, script, size);
    end_program(archive, GRACE);
    enum tunes_end end = start(archive, words);
    if (end == TUNES_DONE)
        end = exchange_all(archive, &outgoing, reply);
    if (end != TUNES_DONE)
        return end;
    int refusal = refusal_of_opening(archive, reply);
    if (refusal < 0)
        return TUNES_DONE;
    empty(reply);
    reply->status = archive->status;
    return unopened(archive, reply, (unsigned)refusal);
}

/* The same, and tries again while another program has the file. */
static enum tunes_end run_in_time(struct tunes_archive *archive, char *const words[],
                                  const void *script, size_t size, struct tunes_reply *reply)
{
    long long deadline = in_seconds(archive->wait_seconds);
    begin(archive, reply);
    if (archive->failed)
        return open_for(archive, TUNES_ASK, reply);
    void *aside = set_aside(reply, script, NULL);
    enum tunes_end end = run_once(archive, words, script, size, reply);
    while (end == TUNES_BUSY && !is_late(deadline)) {
        sleep_until(now() + PAUSE);
        end = run_once(archive, words, script, size, reply);
    }
    free(aside);
    return end;
}

enum tunes_end tunes_archive_script(struct tunes_archive *archive, enum tunes_use use,
                                    const void *script, size_t size, struct tunes_reply *reply)
{
    char *const to_ask[] = { archive->programs[TUNES_ASK], "-f", archive->path, "ask", NULL };
    char *const to_change[] = { archive->programs[TUNES_CHANGE], "run", archive->path, NULL };
    return run_in_time(archive, use == TUNES_ASK ? to_ask : to_change, script, size, reply);
}

enum tunes_end tunes_archive_make(struct tunes_archive *archive, struct tunes_reply *reply)
{
    char *const words[] = { archive->programs[TUNES_CHANGE], "make", archive->path, NULL };
    enum tunes_end end = run_in_time(archive, words, NULL, 0, reply);
    if (end != TUNES_DONE || wrote(reply, "made\n"))
        return end;
    if (wrote(reply, "refused 21 OutOfMemory\n"))
        return unopened(archive, reply, 21);
    if (wrote(reply, "refused 22 Device\n"))
        return device_failed(archive);
    return exchange_failed(archive, reply, TUNES_NONSENSE);
}

/* The line of `check`. */
static int take_counts(struct tunes_reply *reply)
{
    struct rest rest = { reply->bytes, reply->bytes + reply->used };
    unsigned long tunes;
    if (!take(&rest, "layout ") || !take_small(&rest, &reply->layout) || !take(&rest, " tunes ") ||
        !take_small(&rest, &tunes) || !take(&rest, " sets ") ||
        !take_small(&rest, &reply->sets) || !take(&rest, "\n") || rest.at != rest.end)
        return 0;
    reply->kind = TUNES_COUNTS;
    reply->count = tunes;
    return 1;
}

enum tunes_end tunes_archive_check(struct tunes_archive *archive, struct tunes_reply *reply)
{
    char *const words[] = { archive->programs[TUNES_ASK], "-f", archive->path, "check", NULL };
    enum tunes_end end = run_in_time(archive, words, NULL, 0, reply);
    if (end != TUNES_DONE || take_counts(reply))
        return end;
    return exchange_failed(archive, reply, TUNES_NONSENSE);
}

enum tunes_end tunes_archive_version(struct tunes_archive *archive, enum tunes_use use,
                                     struct tunes_reply *reply)
{
    char *const words[] = { archive->programs[use], "--version", NULL };
    struct outgoing outgoing = { .count = 0 };
    begin(archive, reply);
    end_program(archive, GRACE);
    enum tunes_end end = start(archive, words);
    if (end == TUNES_DONE)
        end = exchange_all(archive, &outgoing, reply);
    if (end == TUNES_DONE && (reply->used == 0 || archive->status > 0))
        return exchange_failed(archive, reply, TUNES_BROKEN_OFF);
    return end;
}

const char *tunes_refusal_words(unsigned number)
{
    static const char *const words[] = {
        [1] = "there is no tune in the book: no line begins with X:",
        [2] = "a tune of the book has no K: line, or is too long; give it one, or cut it in two",
        [3] = "the book has more tunes than one",
        [4] = "no tune has the number",
        [5] = "the tune was replaced meanwhile; show it, and replace what it is now",
        [6] = "the tune was replaced 9,998 times, and no more; add it as a new tune",
        [7] = "another tune has the number",
        [8] = "a set list has the tune; cut it out there first",
        [9] = "the archive would have too many tunes; make a second one, or upgrade layout 1",
        [10] = "the numbers to 999,999 are spent; import the book of an export to a new archive",
        [11] = "there is no such set list",
        [12] = "there is a set list of that name",
        [13] = "the set list has 200 places, and no more; begin a second one",
        [14] = "there are 500 set lists, and no more; drop one",
        [15] = "the set list has no such place",
        [16] = "a set list is named by 1 to 40 letters, digits, - and _",
        [17] = "a tune has a number from 1 to 999,999",
        [18] = "nothing is asked for: a title or a rhythm has a letter, a key is written as D, Bm "
               "or Edor, and notes are two or more",
        [19] = "the book has more than 4,000,000 bytes; import it by parts",
        [21] = "there is not memory enough for the program; end others, and try again",
        [22] = "the device failed, or the file cannot be used",
        [23] = "the device failed in an earlier command",
        [30] = "the line is no command",
        [40] = "the file is no archive; look at the path",
        [41] = "the archive is damaged, or of another version; put a backup in its place",
        [42] = "the file is not empty; choose another path",
    };
    const char *found = number < sizeof words / sizeof words[0] ? words[number] : NULL;
    return found == NULL ? "" : found;
}
