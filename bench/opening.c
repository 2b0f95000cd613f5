// An opening of an archive in a file, as docs/FILE-FORMAT.md says that it has to be: a measure for
// what one must cost. It asks for all that the page asks for, takes the keys of a tune as
// docs/ABC-PROFILE.md says, and makes the calls of the system that the program makes: pages that
// stand side by side are read by one.
//     FILE           prints `layout 2 tunes N sets M`, and `damaged` or `no archive` with status 1
//     --times FILE   the same, and then the microseconds of the opening by the clock and those of
//                    the processor
//     --reads FILE   opens the file, makes the calls of an opening once more and nothing else, and
//                    prints the microseconds of these
//     --of WORD..    runs another program, whose output is dropped, and prints the microseconds of
//                    its whole run
// A file that no program of the archive has written may be opened: no text makes it do more work
// than in proportion to its length.
#include <errno.h>
#include <fcntl.h>
#include <stdbool.h>
#include <stdint.h>
#include <stdio.h>
#include <stdlib.h>
#include <string.h>
#include <sys/file.h>
#include <sys/resource.h>
#include <sys/stat.h>
#include <sys/wait.h>
#include <time.h>
#include <unistd.h>

typedef unsigned char Byte;

enum { GATE = 4096, DESCRIPTOR = 8192, COUNT = 12288, FIRST_PAGE = 16384, OPEN = 0xA7 };
enum { PAGE = 4096, ROOT = 28, LINK_HEAD = 6, LINK_BYTES = 4090, LEAF_HEAD = 2, LEAF_BYTES = 4094 };
enum { NUMBER = 4, KEY = 32, LONGEST_KEY = 48, REVISION = 2, LINE = 64 };
// The most pages that are read by one call.
enum { RUN = 32 };
enum { MOST_PAGES = 4000000, MOST_TUNES = 50000, MOST_TITLES = 8, MOST_NOTES = 12 };
enum { MOST_NUMBER = 999999, MOST_REVISION = 9999, LONGEST_TEXT = 64000 };
enum { MOST_SETS = 500, MOST_PLACES = 200, LONGEST_NAME = 40, SETS_PAGES = 104, LIST_PAGES = 392 };
// A letter of a note has its place in the three last bits.
enum { LETTERS = 8, LETTER = 7, SMALL = 0x20, EXPLICIT = 7, NO_MODE = -1 };

typedef struct {
    uint32_t pages, tunes;
    size_t text, text_pages, incipit_key;
    int notes;
} Layout;

// The leaves of an index, which are read one after another into one place: of how many bytes a key
// and an entry are, how many entries a leaf has at most and there may be in all; which part of the
// list was read; how many entries the leaf has that was read last, how many there were up to it,
// and its last entry.
typedef struct {
    size_t width, size, capacity, most;
    size_t listed, next;
    size_t count, all;
    Byte last[LONGEST_KEY + NUMBER];
} Leaves;

// The keys of an index. Those of one tune are found from the last one, by its place plus one; 0 is
// none. Where a tune can have one alone, tunes share it, and there is no list of those before.
typedef struct {
    size_t width;
    Byte *keys;
    uint32_t count;
    uint32_t *last, *before;
} Index;

// A tune as its text is read: the entries of titles that are its own, which of them its titles have
// found, and the notes that count.
typedef struct {
    size_t place;
    const Byte *titles[MOST_TITLES];
    int titles_there, titles_read;
    unsigned titles_found;
    bool has_rhythm, in_part, bar_is_plain;
    int signature[LETTERS];
    int pitches[MOST_NOTES], notes;
} Tune;

// Music that is read: where it ends, the pitches that it has so far, and whether each bracket and
// each brace from here on may still be closed.
typedef struct {
    const Byte *end;
    int *pitches, count;
    bool brackets_close, braces_close;
} Music;

// How items begin: those that are longer than a byte and are no note do so with `ITEM`.
enum { OTHER, NOTE, SIGN, BAR, ITEM };
static const Byte kinds[256] = {
    ['A' ... 'G'] = NOTE, ['a' ... 'g'] = NOTE, ['^'] = SIGN, ['_'] = SIGN, ['='] = SIGN,
    ['|'] = BAR, [':'] = BAR, ['"'] = ITEM, ['!'] = ITEM, ['+'] = ITEM, ['{'] = ITEM,
    ['['] = ITEM, ['('] = ITEM};

static const Layout layouts[] = {{1000000, 20000, 16000, 4, 32, 8},
                                 {4000000, 50000, 64000, 16, 48, 12}};
static const Layout *layout;

static int file;
static uint32_t pages;
static Byte claimed[MOST_PAGES];
// Pages that stand side by side, as they were read by one call: the first, and how many.
typedef struct {
    uint32_t first, count;
} Run;

static Run run;
static _Alignas(PAGE) Byte run_bytes[RUN * PAGE];
// Which runs were read, where their reads are to be made once more.
static Run *runs_read;
static uint32_t runs_read_count;

// The bytes of the chain that was read last, and the leaf, which stands in the run.
static _Alignas(PAGE) Byte chain[LIST_PAGES * LINK_BYTES + PAGE];
static const Byte *leaf;

// For each number the place of its tune plus one, and for each place the first page.
static uint16_t place_of[MOST_NUMBER + 1];
static uint32_t first_of[MOST_TUNES], tunes;
static Index titles, rhythms, scales, incipits;
static uint32_t last_of[4][MOST_TUNES];
static unsigned sets;

// For each octave and letter the bar in which an accidental stood last, times 8, plus the
// accidental and 2. So a new bar forgets all of them at once.
static uint64_t accidentals[2 * LONGEST_TEXT + 2][LETTERS];
static uint64_t bar;

__attribute__((noreturn, cold)) static void failed(const char *what) {
    fprintf(stderr, "%s failed\n", what);
    exit(2);
}

__attribute__((noreturn, cold)) static void refuse(const char *why) {
    puts(why);
    exit(1);
}

static inline void want(bool holds) {
    if (__builtin_expect(!holds, 0)) refuse("damaged");
}

static uint32_t two_bytes(const Byte *at) { return (uint32_t)at[0] << 8 | at[1]; }

static uint32_t four_bytes(const Byte *at) {
    uint32_t number;
    memcpy(&number, at, sizeof number);
    return __builtin_bswap32(number);
}

static uint64_t eight_bytes(const Byte *at) {
    uint64_t number;
    memcpy(&number, at, sizeof number);
    return __builtin_bswap64(number);
}

static void put_four(Byte *at, uint32_t number) {
    number = __builtin_bswap32(number);
    memcpy(at, &number, sizeof number);
}

// Memory that begins with a line of the cache.
static void *taken(size_t size) {
    void *memory = aligned_alloc(LINE, (size / LINE + 1) * LINE);
    if (memory == NULL) failed("memory");
    return memory;
}

// THE FRONT

static void read_bytes(Byte *into, size_t size, off_t at) {
    while (size > 0) {
        ssize_t got = pread(file, into, size, at);
        if (got < 0 && errno == EINTR) continue;
        if (got <= 0) failed("a read");
        into += got;
        at += got;
        size -= (size_t)got;
    }
}

static uint32_t read_number(off_t at) {
    Byte bytes[NUMBER];
    read_bytes(bytes, NUMBER, at);
    return four_bytes(bytes);
}

static void write_bytes(const Byte *bytes, size_t size, off_t at) {
    if (pwrite(file, bytes, size, at) != (ssize_t)size) failed("a write");
}

static void sync_file(void) {
    if (fdatasync(file) != 0) failed("a sync");
}

static off_t place_of_page(uint32_t page) { return FIRST_PAGE + (off_t)PAGE * page; }

static void open_file(const char *path) {
    struct stat about;
    if (stat(path, &about) != 0 || !S_ISREG(about.st_mode)) failed("the file");
    file = open(path, O_RDWR | O_NOCTTY | O_CLOEXEC);
    if (file < 0 || fstat(file, &about) != 0 || !S_ISREG(about.st_mode)) failed("opening");
    if (flock(file, LOCK_EX | LOCK_NB) != 0) failed("a lock");
}

static off_t length_of_file(void) {
    struct stat about;
    if (fstat(file, &about) != 0) failed("a length");
    return about.st_size;
}

// Copies the images of a log that holds to their pages, and closes the gate.
static void recover(uint32_t count, uint32_t entries) {
    Byte entry[NUMBER + PAGE], bytes[NUMBER] = {0};
    off_t at = place_of_page(count);
    for (uint32_t i = 0; i < entries; i++, at += NUMBER + PAGE) {
        read_bytes(entry, NUMBER + PAGE, at);
        write_bytes(entry + NUMBER, PAGE, place_of_page(four_bytes(entry)));
    }
    put_four(bytes, count);
    write_bytes(bytes, NUMBER, COUNT);
    sync_file();
    memset(bytes, 0, sizeof bytes);
    write_bytes(bytes, 1, GATE);
    sync_file();
}

static uint32_t read_log(off_t length) {
    uint32_t count = read_number(DESCRIPTOR), entries = read_number(DESCRIPTOR + NUMBER);
    want(count <= MOST_PAGES && 1 <= entries && entries <= count);
    off_t at = place_of_page(count);
    want(length >= at + (off_t)(NUMBER + PAGE) * entries);
    uint32_t least = 0;
    for (uint32_t i = 0; i < entries; i++, at += NUMBER + PAGE) {
        uint32_t page = read_number(at);
        want(least <= page && page < count);
        least = page + 1;
    }
    recover(count, entries);
    return count;
}

// Leaves in `pages` how many there are.
static void read_front(void) {
    Byte bytes[8];
    sync_file();
    off_t length = length_of_file();
    if (length < 8) refuse("no archive");
    read_bytes(bytes, 8, 0);
    if (memcmp(bytes, "ABCTUNE1", 8) != 0) refuse("no archive");
    want(length >= place_of_page(1));
    read_bytes(bytes, 1, GATE);
    if (bytes[0] == OPEN) {
        pages = read_log(length);
        return;
    }
    pages = read_number(COUNT);
    want(1 <= pages && pages <= MOST_PAGES && length >= place_of_page(pages));
}

// PAGES, CHAINS AND INDEXES

// Reads a page with those behind it: twice as many as the run before had, where that is near, up to
// 32, and else the page alone.
static void read_run(uint32_t page) {
    bool is_near = page >= run.first && (page - run.first) / 2 <= run.count;
    uint32_t most = pages - page < RUN ? pages - page : RUN;
    uint32_t count = is_near && run.count > 0 ? 2 * run.count : 1;
    run = (Run){page, count < most ? count : most};
    if (runs_read != NULL) runs_read[runs_read_count++] = run;
    read_bytes(run_bytes, PAGE * run.count, place_of_page(page));
}

// Gives the bytes of the page, which stand in the run until the next one is read.
static const Byte *claim_page(uint32_t page) {
    want(page < pages && !claimed[page]);
    claimed[page] = 1;
    if (page < run.first || page - run.first >= run.count) read_run(page);
    return run_bytes + PAGE * (page - run.first);
}

// Reads the chain that begins at a page, and gives how many bytes it has.
static size_t read_chain(uint32_t page, size_t most_pages) {
    size_t size = 0;
    while (page != 0) {
        want(most_pages-- > 0);
        const Byte *image = claim_page(page);
        page = four_bytes(image);
        uint32_t used = two_bytes(image + 4);
        want(1 <= used && used <= LINK_BYTES && (page == 0 || used == LINK_BYTES));
        memcpy(chain + size, image + LINK_HEAD, used);
        size += used;
    }
    return size;
}

static Leaves leaves_of(uint32_t first, size_t width, size_t most) {
    Leaves leaves = {.width = width, .size = width + NUMBER, .most = most};
    leaves.capacity = LEAF_BYTES / leaves.size;
    leaves.listed = read_chain(first, (NUMBER * most + LINK_BYTES - 1) / LINK_BYTES);
    want(leaves.listed % NUMBER == 0);
    return leaves;
}

// How many entries may be on the leaves.
static size_t room_for(const Leaves *leaves) {
    size_t room = leaves->listed / NUMBER * leaves->capacity;
    return room < leaves->most ? room : leaves->most;
}

static const Byte *entry_at(const Leaves *leaves, size_t i) {
    return leaf + LEAF_HEAD + leaves->size * i;
}

// Whether the second of two entries with keys of this width stands behind the first.
static bool rises(const Byte *first, const Byte *second, size_t width) {
    for (size_t at = 0; at < width; at += 8) {
        uint64_t left = eight_bytes(first + at), right = eight_bytes(second + at);
        if (left != right) return left < right;
    }
    return four_bytes(first + width) < four_bytes(second + width);
}

// Reads the next leaf, whose entries have to rise from those before; false where there is none.
static bool read_leaf(Leaves *leaves) {
    if (leaves->next == leaves->listed) return false;
    leaf = claim_page(four_bytes(chain + leaves->next));
    leaves->next += NUMBER;
    leaves->count = two_bytes(leaf);
    want(1 <= leaves->count && leaves->count <= leaves->capacity);
    const Byte *entry = entry_at(leaves, 0), *last = entry_at(leaves, leaves->count - 1);
    want(leaves->all == 0 || rises(leaves->last, entry, leaves->width));
    for (; entry < last; entry += leaves->size)
        want(rises(entry, entry + leaves->size, leaves->width));
    leaves->all += leaves->count;
    want(leaves->all <= leaves->most);
    memcpy(leaves->last, last, leaves->size);
    return true;
}

static bool is_zero(const Byte *at, size_t size) {
    uint64_t any = 0;
    for (; size >= 8; size -= 8, at += 8) any |= eight_bytes(at);
    return any == 0 && four_bytes(at) == 0;
}

static void list_tunes(uint32_t first) {
    uint32_t before = 0;
    Leaves leaves = leaves_of(first, KEY, layout->tunes);
    while (read_leaf(&leaves))
        for (size_t i = 0; i < leaves.count; i++) {
            const Byte *key = entry_at(&leaves, i);
            uint32_t number = four_bytes(key);
            want(before < number && number <= MOST_NUMBER && is_zero(key + NUMBER, KEY - NUMBER));
            first_of[tunes] = four_bytes(key + KEY);
            place_of[number] = (uint16_t)++tunes;
            before = number;
        }
}

static bool is_same(const Byte *first, const Byte *second, size_t width) {
    for (size_t at = 0; at < width; at += 16) {
        uint64_t one[2], other[2];
        memcpy(one, first + at, sizeof one);
        memcpy(other, second + at, sizeof other);
        if (((one[0] ^ other[0]) | (one[1] ^ other[1])) != 0) return false;
    }
    return true;
}

static Byte *key_at(const Index *index, uint32_t place) {
    return index->keys + index->width * (place - 1);
}

// Adds a key behind the others, where it is not to be shared with the entry before.
static void add_key(Index *index, const Byte *key) {
    bool shares = index->before == NULL && index->count > 0;
    if (shares && is_same(key_at(index, index->count), key, index->width)) return;
    Byte *to = key_at(index, ++index->count);
    for (size_t at = 0; at < index->width; at += 16) memcpy(to + at, key + at, 16);
}

static void add_entry(Index *index, const Byte *entry) {
    uint32_t number = four_bytes(entry + index->width);
    want(number <= MOST_NUMBER && place_of[number] != 0);
    uint32_t *last = &index->last[place_of[number] - 1];
    add_key(index, entry);
    if (index->before != NULL) index->before[index->count - 1] = *last;
    else want(*last == 0);
    *last = index->count;
}

static void read_search(Index *index, uint32_t first, size_t width, int most_keys) {
    Leaves leaves = leaves_of(first, width, (size_t)MOST_TITLES * layout->tunes);
    size_t room = room_for(&leaves);
    index->width = width;
    index->keys = taken(room * width);
    index->before = most_keys > 1 ? taken(room * sizeof *index->before) : NULL;
    while (read_leaf(&leaves))
        for (size_t i = 0; i < leaves.count; i++) add_entry(index, entry_at(&leaves, i));
}

// SET LISTS

static bool is_letter(Byte byte) { return (Byte)((byte | SMALL) - 'a') < 26; }

static bool is_digit(Byte byte) { return (Byte)(byte - '0') < 10; }

static bool is_name(const Byte *at, const Byte *end) {
    while (at < end && (is_letter(*at) || is_digit(*at) || *at == '-' || *at == '_')) at++;
    return at == end;
}

static int compare_names(const Byte *first, size_t first_size, const Byte *second, size_t size) {
    int order = memcmp(first, second, first_size < size ? first_size : size);
    return order != 0 ? order : (first_size > size) - (first_size < size);
}

static void check_places(const Byte *at, const Byte *end) {
    for (; at < end; at += NUMBER) {
        uint32_t number = four_bytes(at);
        want(number <= MOST_NUMBER && place_of[number] != 0);
    }
}

static void read_sets(uint32_t first) {
    const Byte *at = chain, *end = chain + read_chain(first, SETS_PAGES), *before = NULL;
    size_t before_size = 0;
    for (; at < end; sets++) {
        size_t size = *at++;
        want(sets < MOST_SETS && 1 <= size && size <= LONGEST_NAME);
        want((size_t)(end - at) >= size + 2 && is_name(at, at + size));
        want(before == NULL || compare_names(before, before_size, at, size) < 0);
        before = at;
        before_size = size;
        at += size;
        size_t count = two_bytes(at);
        at += 2;
        want(count <= MOST_PLACES && (size_t)(end - at) >= NUMBER * count);
        check_places(at, at + NUMBER * count);
        at += NUMBER * count;
    }
}

// FIELDS AND TITLES

static bool is_blank(Byte byte) { return byte == ' ' || byte == '\t'; }

static bool begins(const Byte *line, const char *word) {
    return strncmp((const char *)line, word, strlen(word)) == 0;
}

// Where the comment of a text begins, or where the text ends.
static const Byte *before_comment(const Byte *text, const Byte *end) {
    const Byte *at = text;
    while ((at = memchr(at, '%', (size_t)(end - at))) != NULL) {
        if (at == text || at[-1] != '\\') return at;
        at++;
    }
    return end;
}

// Takes the blanks from both ends of a text, which no blank follows.
static inline void strip(const Byte **at, const Byte **end) {
    const Byte *first = *at, *last = *end;
    while (is_blank(*first)) first++;
    while (last > first && is_blank(last[-1])) last--;
    *at = first;
    *end = last;
}

// Leaves the ends of the value of a field line.
static void take_value(const Byte *line, const Byte *line_end, const Byte **at, const Byte **end) {
    *at = line + 2;
    *end = before_comment(*at, line_end);
    strip(at, end);
}

static Byte small(Byte byte) { return (Byte)(byte | SMALL); }

// Whether there is an article of this size.
static bool is_article(const Byte *at, size_t size) {
    switch (size) {
    case 1:
        return small(at[0]) == 'a';
    case 2:
        return small(at[0]) == 'a' && small(at[1]) == 'n';
    default:
        return size == 3 && small(at[0]) == 't' && small(at[1]) == 'h' && small(at[2]) == 'e';
    }
}

// Where the text behind a leading article begins, or where the title begins.
static const Byte *behind_article(const Byte *at, const Byte *end) {
    if (small(*at) != 't' && small(*at) != 'a') return at;
    const Byte *word = at;
    while (word < end && word < at + 4 && !is_blank(*word)) word++;
    if (word == end || !is_article(at, (size_t)(word - at))) return at;
    while (is_blank(*word)) word++;
    return word;
}

// Where the text before a trailing article ends, or where the title ends.
static const Byte *before_article(const Byte *at, const Byte *end) {
    Byte last = small(end[-1]);
    if (last != 'e' && last != 'a' && last != 'n') return end;
    const Byte *word = end;
    while (word > at && word + 4 > end && !is_blank(word[-1])) word--;
    if (word == at || !is_article(word, (size_t)(end - word)) || !is_blank(word[-1])) return end;
    while (is_blank(word[-1])) word--;
    if (word[-1] != ',' || --word == at) return end;
    while (is_blank(word[-1])) word--;
    return word;
}

// Makes a key of a word: its ASCII letters small, cut or filled with zeros.
static void put_word(Byte *key, const Byte *at, const Byte *end) {
    size_t size = (size_t)(end - at);
    memset(key, 0, KEY);
    memcpy(key, at, size < KEY ? size : KEY);
    for (int i = 0; i < KEY; i++) key[i] |= (Byte)((Byte)(key[i] - 'A') < 26) << 5;
}

// KEYS OF A TUNE

static void begin_bar(Tune *tune) {
    bar++;
    tune->bar_is_plain = true;
}

// The tune has just this key in an index in which none has two.
static void want_key(const Index *index, size_t place, const Byte *key) {
    uint32_t last = index->last[place];
    want(last != 0 && is_same(key_at(index, last), key, index->width));
}

static void want_none(const Index *index, size_t place) { want(index->last[place] == 0); }

// The keys of the tune are asked for before its page is read, so that they are there by then.
static void begin_tune(Tune *tune, size_t place) {
    tune->place = place;
    tune->titles_there = tune->titles_read = tune->notes = 0;
    tune->titles_found = 0;
    tune->has_rhythm = tune->in_part = false;
    begin_bar(tune);
    for (uint32_t i = titles.last[place]; i != 0; i = titles.before[i - 1]) {
        want(tune->titles_there < MOST_TITLES);
        tune->titles[tune->titles_there++] = key_at(&titles, i);
        __builtin_prefetch(key_at(&titles, i));
    }
    if (incipits.last[place] == 0) return;
    const Byte *incipit = key_at(&incipits, incipits.last[place]);
    __builtin_prefetch(incipit);
    __builtin_prefetch(incipit + incipits.width - 1);
}

static void read_title(Tune *tune, const Byte *line, const Byte *line_end) {
    const Byte *at, *end;
    Byte key[KEY];
    if (tune->titles_read == MOST_TITLES) return;
    take_value(line, line_end, &at, &end);
    if (at == end) return;
    tune->titles_read++;
    const Byte *rest = behind_article(at, end);
    put_word(key, rest, rest == at ? before_article(at, end) : end);
    int i = 0;
    while (i < tune->titles_there && !is_same(tune->titles[i], key, KEY)) i++;
    want(i < tune->titles_there);
    tune->titles_found |= 1u << i;
}

static void read_rhythm(Tune *tune, const Byte *line, const Byte *line_end) {
    const Byte *at, *end;
    Byte key[KEY];
    if (tune->has_rhythm) return;
    take_value(line, line_end, &at, &end);
    if (at == end) return;
    tune->has_rhythm = true;
    put_word(key, at, end);
    want_key(&rhythms, tune->place, key);
}

// The incipit of the notes that count.
static void check_incipit(const Tune *tune) {
    Byte key[LONGEST_KEY] = {0};
    if (tune->notes < 2) {
        want_none(&incipits, tune->place);
        return;
    }
    for (int i = 1; i < tune->notes; i++)
        put_four(key + NUMBER * (i - 1),
            (uint32_t)(tune->pitches[i] - tune->pitches[i - 1]) + 0x80000000u);
    want_key(&incipits, tune->place, key);
}

// SCALES AND SIGNATURES

static bool is_note(Byte byte) { return (Byte)(small(byte) - 'a') < 7; }

// How many bytes the sign of an accidental has: 0 where there is none. What it stands for goes to
// `accidental`. Its letter has to follow.
static size_t sign_at(const Byte *at, const Byte *end, int *accidental) {
    if (at == end || (*at != '^' && *at != '_' && *at != '=')) return 0;
    size_t size = *at != '=' && at + 1 < end && at[1] == at[0] ? 2 : 1;
    if (at + size == end || !is_note(at[size])) return 0;
    *accidental = *at == '=' ? 0 : *at == '^' ? (int)size : -(int)size;
    return size;
}

// A word that consists of accidentals sets them.
static void set_accidentals(const Byte *at, const Byte *end, int *signature) {
    int changed[LETTERS], accidental;
    memcpy(changed, signature, sizeof changed);
    while (at < end) {
        size_t size = sign_at(at, end, &accidental);
        if (size == 0) return;
        changed[at[size] & LETTER] = accidental;
        at += size + 1;
    }
    memcpy(signature, changed, sizeof changed);
}

static void set_words(const Byte *at, const Byte *end, int *signature) {
    while (at < end) {
        const Byte *word = at;
        while (at < end && !is_blank(*at)) at++;
        set_accidentals(word, at, signature);
        while (at < end && is_blank(*at)) at++;
    }
}

static int mode_of(const Byte *word, size_t size) {
    static const char names[][4] = {"maj", "ion", "dor", "phr", "lyd", "mix", "min", "aeo", "loc",
        "exp"};
    static const int modes[] = {0, 0, 1, 2, 3, 4, 5, 5, 6, EXPLICIT};
    if (size == 0) return 0;
    if (size == 1) return small(*word) == 'm' ? 5 : NO_MODE;
    if (size == 2) return NO_MODE;
    for (size_t i = 0; i < sizeof modes / sizeof *modes; i++) {
        const char *name = names[i];
        if (small(word[0]) == name[0] && small(word[1]) == name[1] && small(word[2]) == name[2])
            return modes[i];
    }
    return NO_MODE;
}

// Sets the signature of a scale, and its key; false where it has none.
static bool set_scale(Byte tonic, Byte sign, int mode, int *signature, Byte *key) {
    // In major, from A on, and by the digits of the modes.
    static const int of_tonic[] = {3, 5, 0, 2, 4, -1, 1}, of_mode[] = {0, -2, -4, 1, -1, -3, -5};
    static const char order[] = "FCGDAEB";
    int sharps = of_tonic[tonic - 'A'] + of_mode[mode];
    if (sign != ' ') sharps += sign == '#' ? 7 : -7;
    if (sharps < -7 || sharps > 7) return false;
    for (int i = 0; i < sharps; i++) signature[order[i] & LETTER] = 1;
    for (int i = 0; i < -sharps; i++) signature[order[6 - i] & LETTER] = -1;
    key[0] = tonic;
    key[1] = sign;
    key[2] = (Byte)('0' + mode);
    return true;
}

// Reads a tonic and a mode, and gives where the words behind them begin; of no key at the end.
static const Byte *read_scale(const Byte *at, const Byte *end, int *signature, Byte *key) {
    Byte tonic = *at++, sign = ' ';
    if (tonic < 'A' || tonic > 'G') return end;
    if (at < end && (*at == '#' || *at == 'b')) sign = *at++;
    if (at < end && !is_blank(*at) && !is_letter(*at) && *at != '^' && *at != '_' && *at != '=')
        return end;
    const Byte *word = at;
    while (word < end && is_blank(*word)) word++;
    const Byte *words = word;
    while (words < end && is_letter(*words)) words++;
    int mode = mode_of(word, (size_t)(words - word));
    if (mode == NO_MODE || (words > word && words < end && *words == '=')) {
        if (word == at) return end;
        mode = 0;
        words = at;
    }
    return mode == EXPLICIT || set_scale(tonic, sign, mode, signature, key) ? words : end;
}

static bool is_none(const Byte *at, size_t size) {
    return size == 4 && small(at[0]) == 'n' && small(at[1]) == 'o' && small(at[2]) == 'n'
        && small(at[3]) == 'e';
}

// Reads a key text: its signature, and the key of its scale, which begins with zero where there is
// none.
static void read_key(const Byte *at, const Byte *end, int *signature, Byte *key) {
    memset(signature, 0, LETTERS * sizeof *signature);
    key[0] = 0;
    strip(&at, &end);
    if (at == end) return;
    const Byte *word = at;
    while (word < end && !is_blank(*word)) word++;
    size_t size = (size_t)(word - at);
    if (size == 2 && at[0] == 'H' && (at[1] == 'P' || at[1] == 'p')) {
        if (at[1] == 'p') signature['F' & LETTER] = signature['C' & LETTER] = 1;
        return;
    }
    if (!is_none(at, size)) word = read_scale(at, end, signature, key);
    while (word < end && is_blank(*word)) word++;
    set_words(word, end, signature);
}

// The key of the header.
static void check_key(Tune *tune, const Byte *line, const Byte *line_end) {
    const Byte *at, *end;
    Byte key[KEY] = {0};
    take_value(line, line_end, &at, &end);
    read_key(at, end, tune->signature, key);
    if (key[0] != 0) want_key(&scales, tune->place, key);
    else want_none(&scales, tune->place);
}

static void change_key(Tune *tune, const Byte *at, const Byte *end) {
    Byte key[KEY];
    read_key(at, end, tune->signature, key);
}

// MUSIC

// The byte at the end of music is that of a comment, of a bracket or of a line's end: none that an
// item could go on with. So what reads an item byte by byte need not ask for the end.

static const Byte *behind_digits(const Byte *at) {
    while (is_digit(*at)) at++;
    return at;
}

static const Byte *behind_tuplet(const Byte *at) {
    if (!is_digit(*++at)) return at;
    at = behind_digits(at);
    for (int i = 0; i < 2 && *at == ':'; i++) at = behind_digits(at + 1);
    return at;
}

// The pitch of a note behind a sign of this size. Leaves where the note ends.
static int read_note(Tune *tune, const Byte **behind, size_t size, int accidental) {
    static const signed char semitones[LETTERS] = {0, 9, 11, 0, 2, 4, 5, 7};
    const Byte *at = *behind + size;
    int letter = *at & LETTER, octave = (*at & SMALL) != 0;
    for (at++; *at == ',' || *at == '\''; at++) octave += *at == ',' ? -1 : 1;
    *behind = at;
    int altered = tune->signature[letter];
    if (size > 0 || !tune->bar_is_plain) {
        uint64_t *kept = &accidentals[octave + LONGEST_TEXT][letter];
        if (size > 0) *kept = bar << 3 | (uint64_t)(accidental + 2);
        if (*kept >> 3 == bar) altered = (int)(*kept & 7) - 2;
        tune->bar_is_plain = false;
    }
    return semitones[letter] + 12 * octave + altered;
}

// Where an item ends that begins with a byte and goes to the next one of another; where it is not
// closed, nothing.
static const Byte *behind_closed(const Byte *at, const Byte *end, int closing) {
    const Byte *found = memchr(at + 1, closing, (size_t)(end - at - 1));
    return found == NULL ? NULL : found + 1;
}

// Where a chord is closed that begins here, or nothing.
static const Byte *end_of_chord(const Byte *at, const Byte *end) {
    const Byte *inside = at + 1;
    if (is_digit(*inside)) return NULL;
    for (at = inside; at < end && *at != '[' && *at != ']' && *at != '|'; at++) {}
    return at < end && *at == ']' && at > inside ? at : NULL;
}

static int read_music(Tune *tune, const Byte *at, const Byte *end, int *pitches, int most);

// Reads what a bracket begins, and gives where it ends. A chord adds its first note, where it has
// one, to the pitches.
static const Byte *read_bracket(Tune *tune, const Byte *at, Music *music) {
    if (!music->brackets_close) return at + 1;
    if (is_letter(at[1]) && at[2] == ':') {
        const Byte *behind = behind_closed(at + 2, music->end, ']');
        music->brackets_close = behind != NULL;
        if (behind == NULL) return at + 1;
        if (at[1] == 'K') change_key(tune, at + 3, behind - 1);
        return behind;
    }
    const Byte *last = end_of_chord(at, music->end);
    if (last == NULL) return at + 1;
    music->count += read_music(tune, at + 1, last, music->pitches + music->count, 0);
    return last + 1;
}

// Reads an item that is no note, but for those of a chord, and gives where it ends.
static const Byte *read_item(Tune *tune, const Byte *at, Music *music) {
    const Byte *behind = NULL;
    if (*at == '[') return read_bracket(tune, at, music);
    if (*at == '(') return behind_tuplet(at);
    if (*at != '{') {
        behind = behind_closed(at, music->end, *at);
    } else if (music->braces_close) {
        behind = behind_closed(at, music->end, '}');
        music->braces_close = behind != NULL;
    }
    return behind != NULL ? behind : at + 1;
}

// Reads music up to so many notes, and gives how many there are. Of a chord, for which `most` is 0,
// all are read, since they bear accidentals, and the pitch of the first one is given.
static int read_music(Tune *tune, const Byte *at, const Byte *end, int *pitches, int most) {
    Music music = {end, pitches, 0, true, true};
    while (at < end) {
        int kind = kinds[*at], accidental = 0;
        size_t size = 0;
        if (kind == SIGN) {
            size = sign_at(at, end, &accidental);
            kind = size > 0 ? NOTE : OTHER;
        }
        if (kind == OTHER) {
            at++;
        } else if (kind == NOTE) {
            int pitch = read_note(tune, &at, size, accidental);
            if (most > 0 || music.count == 0) pitches[music.count++] = pitch;
            if (music.count == most) return most;
        } else if (kind == BAR) {
            begin_bar(tune);
            at++;
        } else {
            at = read_item(tune, at, &music);
            if (music.count == most && most > 0) return most;
        }
    }
    return music.count;
}

// TEXTS

// No line is empty, and none is one of `X:`. Gives the line's end.
static const Byte *check_line(const Byte *line, const Byte *end) {
    const Byte *at = line;
    while (is_blank(*at)) at++;
    want(*at != '\n' && !(line[0] == 'X' && line[1] == ':'));
    return memchr(at, '\n', (size_t)(end - at));
}

// A line that begins with `%` may begin or end a part.
static void read_part(Tune *tune, const Byte *line) {
    tune->in_part = tune->in_part ? !begins(line, "%%end") : begins(line, "%%begin");
}

// Reads the header, and gives where the body begins.
static const Byte *read_header(Tune *tune, const Byte *line, const Byte *end) {
    for (;;) {
        want(line < end);
        const Byte *line_end = check_line(line, end);
        if (*line == '%') read_part(tune, line);
        if (line[1] == ':') {
            if (*line == 'T') read_title(tune, line, line_end);
            else if (*line == 'R') read_rhythm(tune, line, line_end);
            else if (*line == 'K') {
                check_key(tune, line, line_end);
                return line_end + 1;
            }
        }
        line = line_end + 1;
    }
}

static void read_body_line(Tune *tune, const Byte *line, const Byte *line_end) {
    const Byte *at, *end;
    if (*line == '%') {
        read_part(tune, line);
        return;
    }
    if (tune->in_part) return;
    if (line[1] != ':' || !(is_letter(*line) || *line == '+')) {
        tune->notes += read_music(tune, line, before_comment(line, line_end),
            tune->pitches + tune->notes, layout->notes - tune->notes);
    } else if (*line == 'K') {
        take_value(line, line_end, &at, &end);
        change_key(tune, at, end);
    }
}

static void read_text(Tune *tune, const Byte *text, const Byte *end) {
    want(end[-1] == '\n' && memchr(text, '\r', (size_t)(end - text)) == NULL);
    const Byte *line = read_header(tune, text, end);
    want(tune->has_rhythm || rhythms.last[tune->place] == 0);
    want(tune->titles_found == (1u << tune->titles_there) - 1);
    while (line < end) {
        const Byte *line_end = check_line(line, end);
        if (tune->notes < layout->notes) read_body_line(tune, line, line_end);
        line = line_end + 1;
    }
    check_incipit(tune);
}

static void read_tune(size_t place) {
    Tune tune;
    begin_tune(&tune, place);
    size_t size = read_chain(first_of[place], layout->text_pages);
    want(REVISION < size && size <= REVISION + layout->text);
    uint32_t revision = two_bytes(chain);
    want(1 <= revision && revision <= MOST_REVISION);
    read_text(&tune, chain + REVISION, chain + size);
}

// THE WHOLE

static void open_archive(const char *path) {
    Byte root[ROOT];
    open_file(path);
    read_front();
    memcpy(root, claim_page(0), ROOT);
    uint32_t version = four_bytes(root);
    want(version == 1 || version == 2);
    layout = &layouts[version - 1];
    list_tunes(four_bytes(root + 4));
    read_search(&titles, four_bytes(root + 8), KEY, MOST_TITLES);
    read_search(&rhythms, four_bytes(root + 12), KEY, 1);
    read_search(&scales, four_bytes(root + 16), KEY, 1);
    read_search(&incipits, four_bytes(root + 20), layout->incipit_key, 1);
    read_sets(four_bytes(root + 24));
    for (size_t place = 0; place < tunes; place++) read_tune(place);
    want(pages <= layout->pages);
    close(file);
}

// Makes the calls of an opening that read these runs.
static void make_calls(const char *path) {
    Byte bytes[8];
    open_file(path);
    sync_file();
    length_of_file();
    read_bytes(bytes, 8, 0);
    read_bytes(bytes, 1, GATE);
    read_bytes(bytes, NUMBER, COUNT);
    for (uint32_t i = 0; i < runs_read_count; i++)
        read_bytes(run_bytes, PAGE * runs_read[i].count, place_of_page(runs_read[i].first));
    close(file);
}

static double microseconds(clockid_t clock) {
    struct timespec now;
    clock_gettime(clock, &now);
    return (double)now.tv_sec * 1e6 + (double)now.tv_nsec / 1e3;
}

// Runs another program, and prints what it took.
static int time_other(char **words) {
    struct rusage usage;
    int status;
    double start = microseconds(CLOCK_MONOTONIC);
    pid_t child = fork();
    if (child == 0) {
        int nowhere = open("/dev/null", O_WRONLY);
        if (nowhere < 0 || dup2(nowhere, 1) < 0) _exit(127);
        execvp(words[0], words);
        _exit(127);
    }
    if (child < 0 || wait4(child, &status, 0, &usage) != child) failed("the other program");
    printf("%.0f %.0f\n", microseconds(CLOCK_MONOTONIC) - start,
        1e6 * (double)(usage.ru_utime.tv_sec + usage.ru_stime.tv_sec)
        + (double)(usage.ru_utime.tv_usec + usage.ru_stime.tv_usec));
    return WIFEXITED(status) ? WEXITSTATUS(status) : 1;
}

int main(int count, char **words) {
    bool times = count == 3 && strcmp(words[1], "--times") == 0;
    bool reads = count == 3 && strcmp(words[1], "--reads") == 0;
    if (count > 2 && strcmp(words[1], "--of") == 0) return time_other(words + 2);
    if (count != 2 && !times && !reads) return 2;
    titles.last = last_of[0];
    rhythms.last = last_of[1];
    scales.last = last_of[2];
    incipits.last = last_of[3];
    if (reads) {
        runs_read = taken(MOST_PAGES * sizeof *runs_read);
        open_archive(words[2]);
    }
    double start = microseconds(CLOCK_MONOTONIC), work = microseconds(CLOCK_PROCESS_CPUTIME_ID);
    if (reads) make_calls(words[2]);
    else open_archive(words[count - 1]);
    work = microseconds(CLOCK_PROCESS_CPUTIME_ID) - work;
    start = microseconds(CLOCK_MONOTONIC) - start;
    if (!reads) printf("layout %d tunes %u sets %u\n", (int)(layout - layouts) + 1, tunes, sets);
    if (times || reads) printf("%.0f %.0f\n", start, work);
    return 0;
}
