/* A small player's ways into an archive: finds tunes by their opening notes as they are printed,
 * shows one, and lists a set list.
 *
 * Build it, at the top of the repository:
 *     cc -std=c11 -o player clients/c/player.c clients/c/tunes_archive.c
 * The programs `tunes` and `tunes-desk` are found on PATH, or by the variables TUNES and
 * TUNES_DESK.
 *
 *     ./player tunes.abcx find GABc     the tunes that begin so, whatever their key
 *     ./player tunes.abcx show 3        one of them
 *     ./player tunes.abcx set friday    the tunes of a set list, by their places
 *
 * The status is 0; 1 where it was refused, or the file could not be used; 2 for other words. */
#include "tunes_archive.h"

#include <stdio.h>
#include <stdlib.h>
#include <string.h>

/* A tune's number, and its title where it has one: that may have any bytes. */
static void print_row(const struct tunes_row *row)
{
    printf("%lu", row->number);
    if (row->text.start != NULL) {
        putchar(' ');
        fwrite(row->text.start, 1, row->text.length, stdout);
    }
    putchar('\n');
}

static enum tunes_end find(struct tunes_archive *archive, const char *notes)
{
    struct tunes_reply reply = TUNES_REPLY_NONE;
    enum tunes_end end = tunes_find_printed(archive, notes, &reply);
    for (size_t at = 0; at < reply.count; at++)
        print_row(&reply.rows[at]);
    tunes_reply_free(&reply);
    return end;
}

static enum tunes_end show(struct tunes_archive *archive, unsigned long number)
{
    struct tunes_reply reply = TUNES_REPLY_NONE;
    enum tunes_end end = tunes_show(archive, number, &reply);
    if (end == TUNES_DONE)
        fwrite(reply.text.start, 1, reply.text.length, stdout);
    tunes_reply_free(&reply);
    return end;
}

static enum tunes_end list_set(struct tunes_archive *archive, const char *name)
{
    struct tunes_reply reply = TUNES_REPLY_NONE;
    enum tunes_end end = tunes_set_show(archive, name, &reply);
    for (size_t at = 0; at < reply.count; at++) {
        printf("%lu ", reply.rows[at].place);
        print_row(&reply.rows[at]);
    }
    tunes_reply_free(&reply);
    return end;
}

static int is_number(const char *word)
{
    size_t digits = strspn(word, "0123456789");
    return digits > 0 && digits < 10 && word[digits] == '\0';
}

int main(int count, char **words)
{
    struct tunes_options options = { .wait_seconds = 10 };
    struct tunes_archive *archive = NULL;
    const char *command = count == 4 ? words[2] : "";
    int finds = strcmp(command, "find") == 0, lists = strcmp(command, "set") == 0;
    int shows = strcmp(command, "show") == 0 && is_number(words[3]);
    if (!(finds || lists || shows) ||
        tunes_archive_open(words[1], &options, &archive) != TUNES_DONE) {
        fputs("Usage: player FILE find NOTES | show NUMBER | set NAME\n", stderr);
        return 2;
    }
    enum tunes_end end = finds   ? find(archive, words[3])
                         : lists ? list_set(archive, words[3])
                                 : show(archive, strtoul(words[3], NULL, 10));
    if (end != TUNES_DONE)
        fprintf(stderr, "player: %s\n", tunes_archive_message(archive));
    tunes_archive_close(archive);
    return end != TUNES_DONE || fflush(stdout) != 0;
}
