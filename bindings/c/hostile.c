/* hostile FILE...: calls both readings as no good caller would, to be run under valgrind. Every table and every text is a
 * block of its own on the heap, exactly as long as the functions are told, so that valgrind sees a step beyond any.
 *
 * - each table in turn with no place, one place, one short of its room, its room, one more; and NULL with no place;
 * - texts that are empty, as long as can be, one byte longer, with a high byte, with as many lines as bytes, and a
 *   network that fills every room;
 * - each FILE and that network, cut at many places (a short FILE at every place).
 *
 * Each reading is held against one with tables never written before, so that nothing old can show through.
 * Ends with 1 and a sentence at the first thing that is wrong. */
#include <stdarg.h>
#include <stdio.h>
#include <stdlib.h>
#include <string.h>

#include "inp.h"

enum { WORDS, NUMBERS, CLASSES, REASONS, COUNTS, TABLES };
static const char *const TABLE_NAMES[TABLES] = { "words", "numbers", "classes", "reasons", "counts" };
static const size_t ROOMS[TABLES] = {
    INP_WORDS_ROOM, INP_NUMBERS_ROOM, INP_CLASSES_ROOM, INP_REASONS_ROOM, INP_COUNTS_ROOM
};
static const size_t PLACE_SIZES[TABLES] = {
    sizeof(uint64_t), sizeof(double), sizeof(uint8_t), sizeof(uint8_t), sizeof(uint64_t)
};

/* Strict reading is lent the first two tables, a survey all. */
enum reading { STRICT = 2, SURVEY = TABLES };

/* What filled tables hold before a call. */
enum { FILL = 0xA5 };

/* A text is cut at no more places than this; the full network, which takes longest to read, at fewer. */
enum { MOST_CUTS = 240, FULL_CUTS = 40 };

struct text {
    const char *name;
    uint8_t *bytes;
    size_t length;
};

struct call {
    const struct text *text;
    enum reading reading;
    size_t lengths[TABLES];
    void *tables[TABLES];
    uint64_t line;
    uint64_t answer;
};

static void *block(size_t size)
{
    void *bytes = malloc(size);
    if (!bytes && size) {
        fprintf(stderr, "hostile: there is no memory for %zu bytes\n", size);
        exit(1);
    }
    return bytes;
}

/* Says what call went wrong, and how. */
static void fail(const struct call *call, const char *form, ...)
{
    va_list details;
    fprintf(stderr, "hostile: %s reading of %s (%zu bytes)", call->reading == STRICT ? "strict" : "survey",
            call->text->name, call->text->length);
    for (int i = 0; i < (int)call->reading; i++)
        fprintf(stderr, ", %s %zu%s", TABLE_NAMES[i], call->lengths[i], call->tables[i] ? "" : " (NULL)");
    fprintf(stderr, ": ");
    va_start(details, form);
    vfprintf(stderr, form, details);
    va_end(details);
    fprintf(stderr, "\n");
    exit(1);
}

/* ---- calls */

static struct call plan(const struct text *text, enum reading reading)
{
    struct call call = { .text = text, .reading = reading, .line = FILL };
    memcpy(call.lengths, ROOMS, sizeof ROOMS);
    return call;
}

static void lend(struct call *call)
{
    for (int i = 0; i < (int)call->reading; i++)
        call->tables[i] = block(call->lengths[i] * PLACE_SIZES[i]);
}

static void lend_filled(struct call *call)
{
    lend(call);
    for (int i = 0; i < (int)call->reading; i++)
        memset(call->tables[i], FILL, call->lengths[i] * PLACE_SIZES[i]);
}

static void take_back(struct call *call)
{
    for (int i = 0; i < (int)call->reading; i++)
        free(call->tables[i]);
}

static void perform(struct call *call)
{
    const struct text *text = call->text;
    void **tables = call->tables;
    size_t *lengths = call->lengths;
    if (call->reading == STRICT) {
        call->answer = inp_read_strict(text->bytes, text->length, tables[WORDS], lengths[WORDS], tables[NUMBERS],
                                       lengths[NUMBERS], &call->line);
    } else {
        call->answer = inp_read_survey(text->bytes, text->length, tables[WORDS], lengths[WORDS], tables[NUMBERS],
                                       lengths[NUMBERS], tables[CLASSES], lengths[CLASSES], tables[REASONS],
                                       lengths[REASONS], tables[COUNTS], lengths[COUNTS]);
        call->line = 0;
    }
}

/* ---- what must hold after a call */

/* Whether table i holds only `byte` in the places from `from` up to `to`. No early end, so that it is quick. */
static int holds(const struct call *call, int i, size_t from, size_t to, uint8_t byte)
{
    const uint8_t *bytes = call->tables[i];
    uint8_t other = 0;
    for (size_t at = from * PLACE_SIZES[i]; at < to * PLACE_SIZES[i]; at++)
        other |= bytes[at] ^ byte;
    return other == 0;
}

static void check_answer(const struct call *call, uint64_t answer)
{
    if (call->answer != answer)
        fail(call, "the answer is %d, not %d", (int)call->answer, (int)answer);
}

static void check_line(const struct call *call, uint64_t line)
{
    if (call->line != line)
        fail(call, "the line is %d, not %d", (int)call->line, (int)line);
}

/* A table was too small: nothing at all is written. */
static void check_small(const struct call *call)
{
    check_answer(call, INP_SMALL_TABLE);
    check_line(call, 0);
    for (int i = 0; i < (int)call->reading; i++)
        if (!holds(call, i, 0, call->lengths[i], FILL))
            fail(call, "28, and yet %s is written", TABLE_NAMES[i]);
}

static void check_whole_refusal(const struct call *call, uint64_t answer)
{
    check_answer(call, answer);
    check_line(call, 0);
    for (int i = 0; i < (int)call->reading; i++)
        if (!holds(call, i, 0, ROOMS[i], 0))
            fail(call, "the text is refused whole, and yet %s is not empty", TABLE_NAMES[i]);
}

/* The ids of `count` records lie within the text. */
static void check_ids(const struct call *call, int count, uint64_t most, size_t at, size_t width)
{
    const uint64_t *words = call->tables[WORDS];
    uint64_t records = words[INP_COUNTS_AT + count];
    if (records > most)
        fail(call, "%d records where %d have room", (int)records, (int)most);
    for (uint64_t i = 0; i < records; i++) {
        const uint64_t *id = words + at + i * width;
        uint64_t length = call->text->length;
        if (id[INP_ID_LENGTH] == 0 || id[INP_ID_LENGTH] > length || id[INP_ID_PLACE] > length - id[INP_ID_LENGTH])
            fail(call, "the id of the record at %d of words is no part of the text", (int)(at + i * width));
    }
}

static void check_records(const struct call *call)
{
    check_ids(call, INP_COUNT_NODES, INP_NODES_MOST, INP_NODES_AT, INP_NODES_WIDTH);
    check_ids(call, INP_COUNT_LINKS, INP_LINKS_MOST, INP_LINKS_AT, INP_LINKS_WIDTH);
    check_ids(call, INP_COUNT_CURVES, INP_CURVES_MOST, INP_CURVES_AT, INP_CURVES_WIDTH);
    check_ids(call, INP_COUNT_PATTERNS, INP_PATTERNS_MOST, INP_PATTERNS_AT, INP_PATTERNS_WIDTH);
    check_ids(call, INP_COUNT_RULES, INP_RULES_MOST, INP_RULES_AT, INP_RULES_WIDTH);
}

static uint64_t lines_of(const struct text *text)
{
    uint64_t lines = 0;
    for (size_t i = 0; i < text->length; i++)
        lines += text->bytes[i] == '\n';
    return lines + (text->length > 0 && text->bytes[text->length - 1] != '\n');
}

/* Each line has a class, the counts are those of the classes, and nothing stands after the last line. */
static void check_classes(const struct call *call)
{
    const uint8_t *classes = call->tables[CLASSES];
    const uint64_t *counts = call->tables[COUNTS];
    uint64_t found[INP_COUNTS_ROOM] = { lines_of(call->text) };
    for (uint64_t i = 0; i < found[0]; i++) {
        if (classes[i] < INP_BLANK || classes[i] > INP_OPEN)
            fail(call, "line %d has the class %d", (int)i + 1, classes[i]);
        found[classes[i]]++;
    }
    if (memcmp(found, counts, sizeof found) != 0)
        fail(call, "the counts are not those of the lines");
    if (!holds(call, CLASSES, found[0], ROOMS[CLASSES], 0) || !holds(call, REASONS, found[0], ROOMS[REASONS], 0))
        fail(call, "a class or a reason stands after the last line");
}

static int has_high_byte(const struct text *text)
{
    uint8_t all = 0;
    for (size_t i = 0; i < text->length; i++)
        all |= text->bytes[i];
    return all > 127;
}

/* A reading with tables exactly at their rooms and never written before: valgrind sees if old contents are used. */
static struct call reference(const struct text *text, enum reading reading)
{
    struct call call = plan(text, reading);
    lend(&call);
    perform(&call);
    if (text->length > INP_TEXT_ROOM) {
        check_whole_refusal(&call, INP_TOO_LONG);
    } else if (has_high_byte(text)) {
        check_whole_refusal(&call, INP_HIGH_BYTE);
    } else {
        check_records(&call);
        if (reading == SURVEY)
            check_classes(&call);
    }
    return call;
}

/* The same reading, whatever the tables held; and what lies beyond the rooms stays. */
static void check_same(const struct call *call, const struct call *reference)
{
    check_answer(call, reference->answer);
    check_line(call, reference->line);
    for (int i = 0; i < (int)call->reading; i++) {
        if (memcmp(call->tables[i], reference->tables[i], ROOMS[i] * PLACE_SIZES[i]) != 0)
            fail(call, "what %s held before shows through", TABLE_NAMES[i]);
        if (!holds(call, i, ROOMS[i], call->lengths[i], FILL))
            fail(call, "%s is written beyond its room", TABLE_NAMES[i]);
    }
}

/* ---- each table in turn with each length */

static void try_length(const struct call *reference, int table, size_t length)
{
    struct call call = plan(reference->text, reference->reading);
    call.lengths[table] = length;
    lend_filled(&call);
    perform(&call);
    if (length < ROOMS[table])
        check_small(&call);
    else
        check_same(&call, reference);
    take_back(&call);
}

static void try_null(const struct call *reference, int table)
{
    struct call call = plan(reference->text, reference->reading);
    call.lengths[table] = 0;
    lend_filled(&call);
    free(call.tables[table]);
    call.tables[table] = NULL;
    perform(&call);
    check_small(&call);
    take_back(&call);
}

static void try_lengths(const struct text *text, enum reading reading)
{
    struct call first = reference(text, reading);
    for (int i = 0; i < (int)reading; i++) {
        size_t lengths[] = { 0, 1, ROOMS[i] - 1, ROOMS[i], ROOMS[i] + 1 };
        for (size_t k = 0; k < sizeof lengths / sizeof *lengths; k++)
            try_length(&first, i, lengths[k]);
        try_null(&first, i);
    }
    take_back(&first);
}

/* ---- texts */

static struct text exact_text(const char *name, const void *bytes, size_t length)
{
    struct text text = { name, block(length), length };
    memcpy(text.bytes, bytes, length);
    return text;
}

/* Both readings, and the text is as it was. */
static void try_text(const struct text *text)
{
    struct text before = exact_text(text->name, text->bytes, text->length);
    enum reading readings[] = { STRICT, SURVEY };
    for (int i = 0; i < 2; i++) {
        struct call first = reference(text, readings[i]);
        try_length(&first, WORDS, ROOMS[WORDS]);
        if (memcmp(before.bytes, text->bytes, text->length) != 0)
            fail(&first, "the text is written");
        take_back(&first);
    }
    free(before.bytes);
}

static void try_cuts(const struct text *text, size_t most)
{
    size_t step = 1 + text->length / most;
    for (size_t length = 0; length <= text->length; length += step) {
        struct text cut = exact_text(text->name, text->bytes, length);
        try_text(&cut);
        free(cut.bytes);
    }
}

static void try_all_lengths(const char *name, const void *bytes, size_t length)
{
    struct text text = exact_text(name, bytes, length);
    try_lengths(&text, STRICT);
    try_lengths(&text, SURVEY);
    free(text.bytes);
}

static void try_no_text(void)
{
    struct text none = { "NULL", NULL, 0 };
    try_lengths(&none, STRICT);
    try_lengths(&none, SURVEY);
}

/* A text of `length` bytes: `start`, then line ends; its last byte is `last`. */
static void try_long(const char *name, const struct text *start, size_t length, char last)
{
    struct text text = { name, block(length), length };
    memset(text.bytes, '\n', length);
    memcpy(text.bytes, start->bytes, start->length);
    text.bytes[length - 1] = (uint8_t)last;
    try_text(&text);
    try_lengths(&text, STRICT);
    try_lengths(&text, SURVEY);
    free(text.bytes);
}

/* ---- a network that fills every room */

static char network[INP_TEXT_ROOM];
static size_t written;

static void put(const char *form, ...)
{
    va_list details;
    va_start(details, form);
    written += (size_t)vsnprintf(network + written, sizeof network - written, form, details);
    va_end(details);
}

static void put_nodes_and_links(void)
{
    put("[JUNCTIONS]\n");
    for (int i = 0; i < INP_NODES_MOST; i++)
        put("junction%d %d 1\n", i, i);
    put("[PIPES]\n");
    for (int i = 0; i < INP_LINKS_MOST; i++)
        put("L%d junction%d junction0 1 2 3\n", i, i);
}

static void put_series(void)
{
    put("[CURVES]\n");
    for (int i = 0; i < INP_POINTS_MOST; i++)
        put("C%d %d 0.5\n", i % INP_CURVES_MOST, i);
    put("[PATTERNS]\n");
    for (int i = 0; i < INP_MULTIPLIERS_MOST; i += 16)
        put("P%d 1 2 3 4 5 6 7 8 9 0 1 2 3 4 5 6\n", i / 16 % INP_PATTERNS_MOST);
    put("[DEMANDS]\n");
    for (int i = 0; i < INP_DEMANDS_MOST; i++)
        put("junction%d %d P3\n", i % INP_NODES_MOST, i);
}

static void put_rules(void)
{
    put("[RULES]\n");
    for (int i = 0; i < INP_RULES_MOST; i++) {
        put("RULE %d\nIF SYSTEM TIME > %d\n", i, i);
        for (int k = 2; k < INP_CLAUSES_MOST / INP_RULES_MOST; k++)
            put("%s LINK L%d STATUS IS CLOSED\n", k == 2 ? "THEN" : "AND", k);
        put("ELSE LINK L%d STATUS IS OPEN\n\n", i);
    }
}

static void check_full(const struct text *text)
{
    static const uint64_t MOST[] = {
        INP_NODES_MOST, INP_LINKS_MOST, INP_CURVES_MOST, INP_POINTS_MOST, INP_PATTERNS_MOST, INP_MULTIPLIERS_MOST,
        INP_DEMANDS_MOST, INP_RULES_MOST, INP_CLAUSES_MOST
    };
    struct call call = reference(text, STRICT);
    check_answer(&call, INP_ACCEPTED);
    if (memcmp((uint64_t *)call.tables[WORDS] + INP_COUNTS_AT, MOST, sizeof MOST) != 0)
        fail(&call, "the rooms are not full");
    take_back(&call);
}

static struct text full_network(void)
{
    put_nodes_and_links();
    put_series();
    put_rules();
    struct text text = exact_text("a network that fills every room", network, written);
    check_full(&text);
    return text;
}

/* ---- files */

static struct text file_text(const char *name)
{
    static char bytes[INP_TEXT_ROOM + 1];
    FILE *file = fopen(name, "rb");
    if (!file) {
        fprintf(stderr, "hostile: %s cannot be opened\n", name);
        exit(1);
    }
    size_t length = fread(bytes, 1, sizeof bytes, file);
    fclose(file);
    return exact_text(name, bytes, length);
}

static void try_file(const char *name)
{
    struct text text = file_text(name);
    try_all_lengths(name, text.bytes, text.length);
    try_cuts(&text, MOST_CUTS);
    free(text.bytes);
}

int main(int argc, char **argv)
{
    struct text full = full_network();
    struct text none = { "nothing", full.bytes, 0 };
    try_no_text();
    try_all_lengths("an empty text", "", 0);
    try_all_lengths("a high byte", "[JUNCTIONS]\nJ 1\n\x80\n", 18);
    try_long("a full text", &full, INP_TEXT_ROOM, '\n');
    try_long("a full text with a high byte", &full, INP_TEXT_ROOM, '\x80');
    try_long("a full text and one byte", &full, INP_TEXT_ROOM + 1, '\n');
    try_long("a full text and a high byte", &full, INP_TEXT_ROOM + 1, '\x80');
    try_long("line ends only", &none, INP_TEXT_ROOM, '\n');
    try_cuts(&full, FULL_CUTS);
    for (int i = 1; i < argc; i++)
        try_file(argv[i]);
    free(full.bytes);
    return 0;
}
