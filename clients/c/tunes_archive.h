/* Asks and changes an archive of tunes, over the programs `tunes-desk` and `tunes`.
 *
 * A handle (`struct tunes_archive`) is for one archive. It has at most one program at a time: what
 * only asks goes to `tunes-desk -f FILE ask`, which reads the file beside others that read; what
 * changes goes to `tunes run FILE`, which has the file alone. The program is started by the first
 * call that needs it, and has the file open until `tunes_archive_let_go`, `tunes_archive_idle` or
 * `tunes_archive_close`. A change lets go of a program that only asks, and starts the other;
 * questions then go to that one, as long as it runs.
 *
 * A reply (`struct tunes_reply`) is the caller's. Each call that takes one empties it, and fills it
 * with one reply of the archive; all its pointers lead into memory of the reply itself, and hold
 * until the next call with it, or `tunes_reply_free`. One reply may serve all calls: it keeps its
 * memory. What a reply has may be handed to a call that fills the same reply, as a text that
 * `tunes_show` gave to `tunes_replace`.
 *
 *     struct tunes_archive *archive;
 *     struct tunes_reply reply = TUNES_REPLY_NONE;
 *     if (tunes_archive_open("tunes.abcx", NULL, &archive) != TUNES_DONE) { .. no memory .. }
 *     if (tunes_show(archive, 3, &reply) == TUNES_DONE)
 *         fwrite(reply.text.start, 1, reply.text.length, stdout);
 *     else
 *         fprintf(stderr, "%s\n", tunes_archive_message(archive));
 *     tunes_reply_free(&reply);
 *     tunes_archive_close(archive);
 *
 * Threads: a handle and a reply are for one thread at a time. Different handles share nothing, and
 * may be used by different threads. After a `fork` without `exec` only one of the two processes may
 * go on with a handle. No handler of a signal may call these functions.
 *
 * Signals: SIGPIPE is never raised by a call, and what the process does with signals is not
 * touched. A call goes on where a signal interrupts it. SIGCHLD may be ignored, or a handler may
 * take the status of each child: what is lost then is that status in a message.
 *
 * After 900,000 lines a program is let go of and started anew, since it reads 1,000,000 at most.
 *
 * The lines, replies and refusals are those of docs/SCRIPTS.md; docs/PLAYERS.md tells how a program
 * goes on after each end of a call. C11 and POSIX.1-2008, no library besides that of C. */
#ifndef TUNES_ARCHIVE_H
#define TUNES_ARCHIVE_H

#include <stddef.h>

/* How a call ended. After each end but TUNES_DONE, `tunes_archive_message` has it in words. */
enum tunes_end {
    /* Done: the reply has the answer. */
    TUNES_DONE = 0,
    /* Refused, by `reply.refusal`: nothing was changed. The file stays open, but for the refusals
     * 21 of an opening and 30 of a line that ends a run. */
    TUNES_REFUSED,
    /* A line break, too many bytes, too great a number or no word: nothing was written. */
    TUNES_BAD_WORD,
    /* Another program had the file for all of `wait_seconds`: try again. Nothing was written. */
    TUNES_BUSY,
    /* The file was not opened: it is not there, is no regular file, or is not for this user. */
    TUNES_UNOPENED,
    /* The file is no archive (40), is damaged (41), or is to be made and has bytes (42). */
    TUNES_NO_ARCHIVE,
    /* The device failed (22, 23): a change took place or did not. The handle answers nothing more
     * but this; close it, and do what its message says before the file is opened again. */
    TUNES_DEVICE,
    /* The program ended without a whole reply: a change took place or did not. The next call starts
     * it again. */
    TUNES_BROKEN_OFF,
    /* What came is no reply to what was asked; the program was ended. As TUNES_BROKEN_OFF. */
    TUNES_NONSENSE,
    /* No whole reply came within `reply_seconds`; the program was ended. As TUNES_BROKEN_OFF. */
    TUNES_LATE,
    /* There was no memory in this process, or the reply has more than `reply_bytes`; where the
     * reply had begun, the program was ended. As TUNES_BROKEN_OFF. */
    TUNES_NO_MEMORY,
    /* There is no such program, or it cannot be run. */
    TUNES_NO_PROGRAM,
    /* A call of the system failed, as where no descriptor is free. */
    TUNES_SYSTEM
};

/* What a file is open for. */
enum tunes_use {
    TUNES_ASK,   /* to ask it: by `tunes-desk ask`, beside others that ask */
    TUNES_CHANGE /* to change and ask it: by `tunes run`, alone */
};

/* How a handle goes about it. All zeros, as in `struct tunes_options options = { 0 };`, or NULL in
 * the place of the pointer, is a good choice. The texts are copied. */
struct tunes_options {
    /* The program `tunes`; NULL for the one that the variable TUNES names, or else PATH. */
    const char *tunes;
    /* The program `tunes-desk`; NULL for the one of the variable TUNES_DESK, or else of PATH. */
    const char *tunes_desk;
    /* How many seconds an opening waits while another program has the file. */
    unsigned wait_seconds;
    /* How many seconds a reply may take, an opening that waits for no other program among these; 0
     * for as long as it takes. */
    unsigned reply_seconds;
    /* How many bytes a reply may have; 0 for as many as there is memory for. */
    size_t reply_bytes;
};

/* Some bytes of a reply. They may be any bytes, zeros among them; a zero stands behind them, so
 * that a text without zeros is a string of C. `start` is NULL where there is no text at all. */
struct tunes_text {
    const char *start;
    size_t length;
};

/* A row of a reply. */
struct tunes_row {
    /* The number of the tune; of a set list in `tunes_sets`, 0. */
    unsigned long number;
    /* In `tunes_set_show` the place, from 1; in `tunes_sets` how many places the list has. */
    unsigned long place;
    /* The title as an index shows it, where the tune has one; in `tunes_sets` the name. */
    struct tunes_text text;
};

/* What a reply is: which of its other members mean something. All others are zero. */
enum tunes_kind {
    TUNES_NOTHING,    /* there is no reply */
    TUNES_REFUSAL,    /* refusal */
    TUNES_IMPORT,     /* number, last: those of the first and the last tune */
    TUNES_REPLACE,    /* number, revision: the one that it has now */
    TUNES_DELETE,     /* number */
    TUNES_RENUMBER,   /* number, last: the one before, and the one that it has now */
    TUNES_SHOW,       /* number, revision, text: the line `X:NUMBER` and the tune's text */
    TUNES_FIND,       /* rows, count: by number */
    TUNES_TITLES,     /* rows, count: by sorting title */
    TUNES_SET_NEW,    /* name */
    TUNES_SET_ADD,    /* name, place */
    TUNES_SET_CUT,    /* name, place */
    TUNES_SET_DROP,   /* name */
    TUNES_SETS,       /* rows, count: by name */
    TUNES_SET_SHOW,   /* name, rows, count: by place */
    TUNES_EXPORT,     /* text: the book */
    TUNES_EXPORT_SET, /* name, text: the book */
    TUNES_UPGRADE,    /* layout */
    TUNES_COUNTS,     /* layout, count (of tunes), sets: of `tunes_archive_check` */
    TUNES_OUTPUT      /* text, status: of `tunes_archive_script`, `_version` and `_make` */
};

/* Why a command was refused. */
struct tunes_refusal {
    unsigned number;           /* as docs/SCRIPTS.md has it; 0: there is none */
    struct tunes_text name;    /* as `Unknown` */
    struct tunes_text carried; /* all that follows the name, as `7 NoKey` */
    unsigned long value;       /* the number with which that begins; 0: none */
};

/* One reply. `TUNES_REPLY_NONE` before the first call, `tunes_reply_free` after the last. */
struct tunes_reply {
    enum tunes_kind kind;
    unsigned long number, last, revision, place, layout, sets;
    int status; /* of the program; -1 where it is not known */
    struct tunes_text name, text;
    const struct tunes_row *rows;
    size_t count;
    struct tunes_refusal refusal;
    /* The memory of the reply; for the client alone. */
    struct tunes_row *row_memory;
    size_t row_room;
    char *bytes;
    size_t used, room;
};

#define TUNES_REPLY_NONE { .kind = TUNES_NOTHING }

/* Frees the memory of a reply, which is as before its first call then. NULL is left alone. */
void tunes_reply_free(struct tunes_reply *reply);

/* What is refused by the refusal of this number, in a sentence, with what to do. The text is of the
 * program, and is freed by nobody; it is empty for a number that is no refusal's. */
const char *tunes_refusal_words(unsigned number);

struct tunes_archive;

/* Gives a handle for the archive at a path; the caller ends it by `tunes_archive_close`. No file is
 * opened yet, and no program started: the first call that needs one does that. A path is text in
 * UTF-8. On TUNES_BAD_WORD (no path, or an empty one) and TUNES_NO_MEMORY `*archive` is NULL. */
enum tunes_end tunes_archive_open(const char *path, const struct tunes_options *options,
                                  struct tunes_archive **archive);

/* Lets go of the file, and frees the handle. NULL is left alone. */
void tunes_archive_close(struct tunes_archive *archive);

/* What the last call on this handle came to, in words, with what to do; empty after TUNES_DONE. It
 * holds until the next call on the handle, and is freed by nobody. */
const char *tunes_archive_message(const struct tunes_archive *archive);

/* Opens the file for a use, now, where it is not open for it: to see early whether that can be
 * done, or to have the file for several changes. One that is open to be changed serves TUNES_ASK
 * too. Ends: TUNES_DONE; TUNES_BUSY, TUNES_UNOPENED, TUNES_NO_ARCHIVE; TUNES_REFUSED (21, there was
 * no memory in the program); and the ends from TUNES_DEVICE on. */
enum tunes_end tunes_archive_hold(struct tunes_archive *archive, enum tunes_use use);

/* Ends the program, if one runs, so that others may have the file, and waits until it has ended.
 * One that does not end by itself within two seconds is killed: no change is lost by that which was
 * answered. */
void tunes_archive_let_go(struct tunes_archive *archive);

/* Lets go if no call on this handle has ended within the last so many seconds. A client has no
 * clock of its own: call this now and then, as from the loop of a player. */
void tunes_archive_idle(struct tunes_archive *archive, unsigned seconds);

/* Whether a program runs that has the file, and by `*use`, which may be NULL, what for. */
int tunes_archive_holds(const struct tunes_archive *archive, enum tunes_use *use);

/* QUESTIONS. Ends of each: those of `tunes_archive_hold` where the file is not open, TUNES_REFUSED
 * by the refusals that are named, 21 and 30 among them where memory is out, and TUNES_BAD_WORD. */

/* The tune of a number: TUNES_SHOW. Refused: 4. */
enum tunes_end tunes_show(struct tunes_archive *archive, unsigned long number,
                          struct tunes_reply *reply);

/* The tunes that a query finds, as a script does: TUNES_FIND. `kind` is `title`, `rhythm`, `key` or
 * `notes`, and notes are read in C. Refused: 18. */
enum tunes_end tunes_find(struct tunes_archive *archive, const char *kind, const char *query,
                          struct tunes_reply *reply);

/* The tunes that begin with these notes as they are printed: read in each of the fifteen
 * signatures, from seven flats to seven sharps, each tune once, by number, as `tunes-desk find
 * notes` lists them: TUNES_FIND. Fifteen questions. Refused: 18. */
enum tunes_end tunes_find_printed(struct tunes_archive *archive, const char *notes,
                                  struct tunes_reply *reply);

/* All titles of all tunes, as an index has them: TUNES_TITLES. */
enum tunes_end tunes_titles(struct tunes_archive *archive, struct tunes_reply *reply);

/* All set lists: TUNES_SETS. */
enum tunes_end tunes_sets(struct tunes_archive *archive, struct tunes_reply *reply);

/* The tunes of a set list, by place: TUNES_SET_SHOW. Refused: 11. */
enum tunes_end tunes_set_show(struct tunes_archive *archive, const char *name,
                              struct tunes_reply *reply);

/* All tunes as a book: TUNES_EXPORT. */
enum tunes_end tunes_export(struct tunes_archive *archive, struct tunes_reply *reply);

/* The tunes of a set list as a book: TUNES_EXPORT_SET. Refused: 11. */
enum tunes_end tunes_export_set(struct tunes_archive *archive, const char *name,
                                struct tunes_reply *reply);

/* CHANGES. Ends of each as of questions. After TUNES_DONE the change is in the file, wherever the
 * power goes then. Let go after them, where others use the file too. */

/* Adds the tunes of a book, of `size` bytes: TUNES_IMPORT. Refused: 1, 2, 9, 10, 19. More than
 * 999,999,999 bytes are TUNES_BAD_WORD. */
enum tunes_end tunes_import(struct tunes_archive *archive, const void *book, size_t size,
                            struct tunes_reply *reply);

/* Puts the one tune of a book in the place of a tune that has this revision: TUNES_REPLACE.
 * Refused: 1, 2, 3, 4, 5, 6, 19. */
enum tunes_end tunes_replace(struct tunes_archive *archive, unsigned long number,
                             unsigned long revision, const void *book, size_t size,
                             struct tunes_reply *reply);

/* Takes a tune out: TUNES_DELETE. Refused: 4, 8. */
enum tunes_end tunes_delete(struct tunes_archive *archive, unsigned long number,
                            struct tunes_reply *reply);

/* Gives a tune another number: TUNES_RENUMBER. Refused: 4, 7, 17. */
enum tunes_end tunes_renumber(struct tunes_archive *archive, unsigned long number,
                              unsigned long to, struct tunes_reply *reply);

/* Makes a set list: TUNES_SET_NEW. Refused: 12, 14, 16. A name with a blank is TUNES_BAD_WORD. */
enum tunes_end tunes_set_new(struct tunes_archive *archive, const char *name,
                             struct tunes_reply *reply);

/* Puts a tune at the end of a set list: TUNES_SET_ADD. Refused: 4, 11, 13. */
enum tunes_end tunes_set_add(struct tunes_archive *archive, const char *name, unsigned long number,
                             struct tunes_reply *reply);

/* Takes a place out of a set list: TUNES_SET_CUT. Refused: 11, 15. */
enum tunes_end tunes_set_cut(struct tunes_archive *archive, const char *name, unsigned long place,
                             struct tunes_reply *reply);

/* Takes a set list away, and no tune: TUNES_SET_DROP. Refused: 11. */
enum tunes_end tunes_set_drop(struct tunes_archive *archive, const char *name,
                              struct tunes_reply *reply);

/* Brings the archive to layout 2: TUNES_UPGRADE. There is no way back but a copy. */
enum tunes_end tunes_upgrade(struct tunes_archive *archive, struct tunes_reply *reply);

/* ALL ELSE. */

/* Carries out one line of a script, of any bytes but a line feed, without that at its end, and the
 * book behind it, whose size is the last number of an `import` or a `replace`; NULL and 0 for none.
 * A line without a word, one of more than 4,096 bytes, and a book of another size are
 * TUNES_BAD_WORD. A line that is no command is refused by 30. */
enum tunes_end tunes_archive_command(struct tunes_archive *archive, const char *line,
                                     size_t length, const void *book, size_t size,
                                     struct tunes_reply *reply);

/* Runs a whole script of `size` bytes, and lets go: TUNES_OUTPUT, whose text is all replies as they
 * came, also where some are refusals, and whose status is how the run ended. A 22 among them is not
 * looked for. Ends as those of `tunes_archive_hold`. */
enum tunes_end tunes_archive_script(struct tunes_archive *archive, enum tunes_use use,
                                    const void *script, size_t size, struct tunes_reply *reply);

/* Lets go, makes an empty archive in the file, which is not there or has no byte, and does not open
 * it: TUNES_OUTPUT. TUNES_NO_ARCHIVE (42) where it has bytes. */
enum tunes_end tunes_archive_make(struct tunes_archive *archive, struct tunes_reply *reply);

/* Lets go, and tells the layout of the archive and how much it holds, by `tunes-desk check`:
 * TUNES_COUNTS. */
enum tunes_end tunes_archive_check(struct tunes_archive *archive, struct tunes_reply *reply);

/* Lets go, and tells what the program of a use prints for `--version`, as `tunes 0.1.0` and a line
 * feed: TUNES_OUTPUT. No file is opened. */
enum tunes_end tunes_archive_version(struct tunes_archive *archive, enum tunes_use use,
                                     struct tunes_reply *reply);

#endif
