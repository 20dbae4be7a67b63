/* example [FILE]: reads a network file strictly, or standard input, and prints the answer, how many nodes, links and
 * rules were stored, and every action of every rule. */
#include <errno.h>
#include <stdio.h>
#include <string.h>

#include "inp.h"

/* One byte more than the room: a text that is too long fills it, and is then answered 20 and never cut. */
static uint8_t text[INP_TEXT_ROOM + 1];
static uint64_t words[INP_WORDS_ROOM];
static double numbers[INP_NUMBERS_ROOM];

static uint64_t count(int kind)
{
    return words[INP_COUNTS_AT + kind];
}

/* A name may hold any byte but whitespace: what is no plain letter or sign is written as \xNN. */
static void print_name(uint64_t place, uint64_t length)
{
    for (uint64_t i = place; i < place + length; i++) {
        if (text[i] > 32 && text[i] < 127 && text[i] != '\\')
            putchar(text[i]);
        else
            printf("\\x%02x", text[i]);
    }
}

static void print_change(uint64_t status, double setting)
{
    switch (status) {
    case INP_STATUS_OPEN: printf("OPEN"); break;
    case INP_STATUS_CLOSED: printf("CLOSED"); break;
    case INP_STATUS_ACTIVE: printf("ACTIVE"); break;
    default: printf("%.17g", setting);
    }
}

static void print_action(const uint64_t *rule, uint64_t clause)
{
    const uint64_t *action = words + INP_CLAUSES_AT + clause * INP_CLAUSES_WIDTH;
    if (action[INP_CLAUSE_KIND] != INP_ACTION)
        return;
    const uint64_t *link = words + INP_LINKS_AT + action[INP_ACTION_LINK] * INP_LINKS_WIDTH;
    printf("rule ");
    print_name(rule[INP_ID_PLACE], rule[INP_ID_LENGTH]);
    printf(action[INP_ACTION_ELSE] ? " ELSE " : " THEN ");
    print_name(link[INP_ID_PLACE], link[INP_ID_LENGTH]);
    putchar(' ');
    print_change(action[INP_CLAUSE_STATUS], numbers[INP_CLAUSE_NUMBERS_AT + clause]);
    putchar('\n');
}

static void print_actions(void)
{
    for (uint64_t i = 0; i < count(INP_COUNT_RULES); i++) {
        const uint64_t *rule = words + INP_RULES_AT + i * INP_RULES_WIDTH;
        for (uint64_t k = 0; k < rule[INP_RULE_COUNT]; k++)
            print_action(rule, rule[INP_RULE_FIRST] + k);
    }
}

static void read_and_print(size_t length)
{
    uint64_t line;
    uint64_t answer = inp_read_strict(text, length, words, INP_WORDS_ROOM, numbers, INP_NUMBERS_ROOM, &line);
    printf("answer %llu line %llu\n", (unsigned long long)answer, (unsigned long long)line);
    printf("nodes %llu\n", (unsigned long long)count(INP_COUNT_NODES));
    printf("links %llu\n", (unsigned long long)count(INP_COUNT_LINKS));
    printf("rules %llu\n", (unsigned long long)count(INP_COUNT_RULES));
    print_actions();
}

static int cannot_read(const char *name)
{
    fprintf(stderr, "example: %s cannot be read: %s\n", name, strerror(errno));
    return 1;
}

int main(int argc, char **argv)
{
    if (argc > 2) {
        fprintf(stderr, "usage: example [FILE]\n");
        return 1;
    }
    const char *name = argc == 2 ? argv[1] : "standard input";
    FILE *file = argc == 2 ? fopen(name, "rb") : stdin;
    if (!file)
        return cannot_read(name);
    size_t length = fread(text, 1, sizeof text, file);
    if (ferror(file))
        return cannot_read(name);
    fclose(file);
    read_and_print(length);
    return 0;
}
