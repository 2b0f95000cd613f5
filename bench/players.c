/* Asks an archive as a player does, over the client in C, and prints how many milliseconds by the
 * clock each part took: players FILE TUNES. A part is one opening; 1,000 tunes by number; 1,000
 * finds by title, 1,000 by opening notes and 1,000 by notes as they are printed, which find a tune
 * or a few; all titles; a book of all; a letting go; an opening to change it; and 200 changes of
 * set lists. bench/players.sh makes the archive. */
#define _POSIX_C_SOURCE 200809L

#include "../clients/c/tunes_archive.h"

#include <stdio.h>
#include <stdlib.h>
#include <time.h>

static double now(void)
{
    struct timespec time;
    clock_gettime(CLOCK_MONOTONIC, &time);
    return (double)time.tv_sec * 1000 + (double)time.tv_nsec / 1e6;
}

static void fail(struct tunes_archive *archive)
{
    fprintf(stderr, "players: %s\n", tunes_archive_message(archive));
    exit(1);
}

static void tell(const char *part, double begun)
{
    printf("%s %.1f\n", part, now() - begun);
}

/* The digits of a number by eight, the last first, as notes. */
static void opening_of(unsigned number, char notes[12])
{
    int length = 0;
    for (; length < 6; length++, number /= 8)
        notes[length] = "DEGABdeg"[number % 8];
    notes[length++] = 'd';
    notes[length++] = 'e';
    notes[length] = '\0';
}

int main(int count, char **words)
{
    struct tunes_reply reply = TUNES_REPLY_NONE;
    struct tunes_archive *archive = NULL;
    unsigned tunes = count == 3 ? (unsigned)strtoul(words[2], NULL, 10) : 0;
    if (tunes == 0 || tunes_archive_open(words[1], NULL, &archive) != TUNES_DONE)
        return 2;
    char text[32], notes[12];
    double begun = now();
    if (tunes_archive_hold(archive, TUNES_ASK) != TUNES_DONE)
        fail(archive);
    tell("opening", begun);
    begun = now();
    for (unsigned turn = 0; turn < 1000; turn++)
        if (tunes_show(archive, turn * 7919 % tunes + 1, &reply) != TUNES_DONE)
            fail(archive);
    tell("shows", begun);
    begun = now();
    for (unsigned turn = 0; turn < 1000; turn++) {
        snprintf(text, sizeof text, "tune %05u", turn * 7919 % tunes + 1);
        if (tunes_find(archive, "title", text, &reply) != TUNES_DONE || reply.count != 1)
            fail(archive);
    }
    tell("titles", begun);
    begun = now();
    for (unsigned turn = 0; turn < 1000; turn++) {
        opening_of(turn * 7919 % tunes + 1, notes);
        snprintf(text, sizeof text, "[K:G]%s", notes);
        if (tunes_find(archive, "notes", text, &reply) != TUNES_DONE || reply.count == 0)
            fail(archive);
    }
    tell("notes", begun);
    begun = now();
    for (unsigned turn = 0; turn < 1000; turn++) {
        opening_of(turn * 7919 % tunes + 1, notes);
        if (tunes_find_printed(archive, notes, &reply) != TUNES_DONE || reply.count == 0)
            fail(archive);
    }
    tell("printed", begun);
    begun = now();
    if (tunes_titles(archive, &reply) != TUNES_DONE || reply.count != tunes)
        fail(archive);
    tell("all-titles", begun);
    begun = now();
    if (tunes_export(archive, &reply) != TUNES_DONE)
        fail(archive);
    tell("export", begun);
    begun = now();
    tunes_archive_let_go(archive);
    tell("let-go", begun);
    begun = now();
    if (tunes_archive_hold(archive, TUNES_CHANGE) != TUNES_DONE)
        fail(archive);
    tell("opening-to-change", begun);
    begun = now();
    for (unsigned turn = 0; turn < 100; turn++)
        if (tunes_set_new(archive, "bench", &reply) != TUNES_DONE ||
            tunes_set_drop(archive, "bench", &reply) != TUNES_DONE)
            fail(archive);
    tell("changes", begun);
    tunes_archive_close(archive);
    tunes_reply_free(&reply);
    return 0;
}
