/* Reads a script as `tunes list` does, in plain code, and answers what bench/lines.sh asks: an
 * import of one tune, which is kept, `show NUM`, and every other line as no command. The reader's
 * buffer has 65,536 bytes; each answer is one write, before the next line is looked at. */
#include <stdio.h>
#include <stdlib.h>
#include <string.h>
#include <unistd.h>

enum { BUFFER = 65536, LONGEST = 4096, WORDS = 5 };

static char buffer[BUFFER], text[BUFFER], reply[BUFFER];
static size_t from, to, text_length;

struct word {
    const char *at;
    size_t length;
};

/* Moves what is left to the front of the buffer, and reads more behind it. */
static size_t more(void) {
    memmove(buffer, buffer + from, to - from);
    to -= from;
    from = 0;
    ssize_t got = read(0, buffer + to, BUFFER - to);
    if (got < 0) exit(1);
    to += (size_t)got;
    return (size_t)got;
}

static void answer(size_t length) {
    if (write(1, reply, length) != (ssize_t)length) exit(1);
}

/* The first words of a line, at most five. */
static size_t words_of(const char *line, size_t length, struct word *words) {
    size_t count = 0, i = 0;
    while (count < WORDS) {
        while (i < length && (line[i] == ' ' || line[i] == '\t')) i++;
        if (i == length) break;
        words[count].at = line + i;
        while (i < length && line[i] != ' ' && line[i] != '\t') i++;
        words[count].length = (size_t)(line + i - words[count].at);
        count++;
    }
    return count;
}

static int is(struct word word, const char *name) {
    return word.length == strlen(name) && memcmp(word.at, name, word.length) == 0;
}

static long number(struct word word) {
    long value = 0;
    if (word.length > 9) return -1;
    for (size_t i = 0; i < word.length; i++) {
        if (word.at[i] < '0' || word.at[i] > '9') return -1;
        value = value * 10 + (word.at[i] - '0');
    }
    return value;
}

static void import(size_t length) {
    while (to - from < length)
        if (more() == 0) exit(1);
    const char *body = memchr(buffer + from, '\n', length);
    if (body == NULL) exit(1);
    text_length = length - (size_t)(body + 1 - (buffer + from));
    memcpy(text, body + 1, text_length);
    from += length;
    answer((size_t)sprintf(reply, "ok import 1 1\n"));
}

static void show(long asked) {
    if (asked != 1 || text_length == 0) {
        answer((size_t)sprintf(reply, "refused 4 Unknown %ld\n", asked));
        return;
    }
    size_t length = (size_t)sprintf(reply, "ok show 1 1 %zu\nX:1\n", text_length + 4);
    memcpy(reply + length, text, text_length);
    answer(length + text_length);
}

static void carry_out(const char *line, size_t length) {
    struct word words[WORDS];
    size_t count = words_of(line, length, words);
    if (count == 0) return;
    long asked = count == 2 ? number(words[1]) : -1;
    if (asked >= 0 && is(words[0], "import"))
        import((size_t)asked);
    else if (asked >= 0 && is(words[0], "show"))
        show(asked);
    else
        answer((size_t)sprintf(reply, "refused 30 BadLine\n"));
}

int main(void) {
    for (;;) {
        char *end = memchr(buffer + from, '\n', to - from);
        if (end == NULL) {
            if (to - from > LONGEST) return 1;
            if (more() == 0) return 0;
            continue;
        }
        char line[LONGEST];
        size_t length = (size_t)(end - (buffer + from));
        if (length > LONGEST) return 1;
        memcpy(line, buffer + from, length);
        from += length + 1;
        carry_out(line, length);
    }
}
