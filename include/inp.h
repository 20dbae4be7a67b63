/* inp.h: a reader of EPANET network files (.inp) that loses nothing and invents nothing.
 *
 * Two functions, proved: for every text and every length of every table they write only what is lent to them, and what
 * they answer and write is what docs/01-scope.md and docs/LAYOUT.md say. They keep nothing between calls, take no memory
 * from the heap and a few kilobytes of stack, and may be called from several threads at once, each with its own tables.
 *
 * C99, and C++. Link with libinp.a (`bindings/library inp` makes it); it needs nothing but memset.
 */
#ifndef INP_H
#define INP_H

#include <stddef.h>
#include <stdint.h>

#ifdef __cplusplus
extern "C" {
#endif

/* Rooms: how long each table must be, in places (not bytes), and how long a text may be. */
#define INP_TEXT_ROOM 65536
#define INP_WORDS_ROOM 17137
#define INP_NUMBERS_ROOM 8192
#define INP_CLASSES_ROOM 65536
#define INP_REASONS_ROOM 65536
#define INP_COUNTS_ROOM (INP_OPEN + 1) /* all lines, then those of each enum inp_class */

/* The answers, and the reasons of a survey: document 01's "Numbers of the answers". */
enum inp_answer {
    INP_ACCEPTED = 0,
    INP_MISSING = 1,       /* a required field is missing */
    INP_MALFORMED = 2,     /* a number, count, condition value or true/false is malformed */
    INP_USED = 3,          /* a node, link or rule id is already used */
    INP_NOT_FOUND = 4,     /* a named node or link is not found */
    INP_WRONG_KIND = 5,    /* the node is not a junction, or the action's link is not of the kind named */
    INP_X_FALLS = 6,       /* a curve's x is less than its last x */
    INP_UNKNOWN_WORD = 7,  /* unknown word: valve type, time unit, rule operation, target, attribute, comparison, ... */
    INP_NO_CONDITION = 8,  /* a rule group has no condition */
    INP_NO_ACTION = 9,     /* a rule group has no action */
    INP_NO_ID = 10,        /* a rule group has no id */
    INP_TOO_LONG = 20,     /* the text is longer than INP_TEXT_ROOM bytes */
    INP_HIGH_BYTE = 21,    /* a byte of the text is above 127 */
    INP_BEYOND_REACH = 22, /* a number is well formed but beyond reach */
    INP_NO_ROOM = 23,      /* the record or the clauses do not fit */
    INP_SMALL_TABLE = 28   /* a table lent to be written is smaller than its room */
};

/* The classes of lines in a survey. */
enum inp_class {
    INP_BLANK = 1,
    INP_HEADER = 2,
    INP_PASSED = 3, /* of a section that is not read */
    INP_TAKEN = 4,
    INP_REFUSED = 5,
    INP_RULE_TAKEN = 6,
    INP_RULE_REFUSED = 7,
    INP_OPEN = 8 /* of a rule group still open at the end, which is discarded */
};

/* What is lent, to both functions:
 *
 * - Each table is a pointer and a length in places. `text` is only read; the others are written. The functions keep no
 *   pointer. The text need not end in a zero byte.
 * - No table may overlap another, nor the text, nor `*line`. Each must be aligned as its type is.
 * - A table may be longer than its room; what lies beyond the room stays as it was. What a table held before does not
 *   matter.
 * - A table shorter than its room: the answer is INP_SMALL_TABLE and no table is written at all. This comes before all
 *   else.
 * - A pointer with length 0 may be NULL: it is never followed (bindings/c/hostile.c tries it). `line` may not.
 * - Answers INP_TOO_LONG and INP_HIGH_BYTE: the text is refused whole, and each room holds zeros.
 * - The names in the tables are places in the text: keep the text as long as you read the tables.
 */

/* Reads up to the first refused line or rule group. Answers INP_ACCEPTED, with *line 0; or the number of the refusal,
 * with *line the number of the refused line, or of the first line of the refused group, counted from 1, and 0 where the
 * text is refused whole or a table is too small. After a refusal the tables hold the records stored before it, and no
 * index of a pattern. */
uint64_t inp_read_strict(
    const uint8_t *text, size_t text_length,
    uint64_t *words, size_t words_length,
    double *numbers, size_t numbers_length,
    uint64_t *line);

/* Reads to the end, past what is refused. Answers INP_ACCEPTED, or INP_TOO_LONG, INP_HIGH_BYTE or INP_SMALL_TABLE.
 * classes[i] is the enum inp_class of line i + 1, and 0 after the last line. reasons[i] is the enum inp_answer of line
 * i + 1 where it is refused or begins a refused rule group, else 0. counts holds the number of lines, then those of each
 * class, in the order of enum inp_class: counts[INP_BLANK] to counts[INP_OPEN] add up to counts[0]. */
uint64_t inp_read_survey(
    const uint8_t *text, size_t text_length,
    uint64_t *words, size_t words_length,
    double *numbers, size_t numbers_length,
    uint8_t *classes, size_t classes_length,
    uint8_t *reasons, size_t reasons_length,
    uint64_t *counts, size_t counts_length);

/* ---- What the tables hold (docs/LAYOUT.md)
 *
 * Each table is cut into regions, one for each kind of record. Record i of a kind stands at AT + i * WIDTH, in file
 * order, and takes WIDTH places. words[INP_COUNTS_AT + INP_COUNT_NODES] is how many nodes there are, and so on.
 * The number of each #define is the library's: `bindings/layout` holds it against what the proved program `layout` prints.
 *
 * id:    place of the name in the text, its length, and a key that only the library needs
 * name:  place and length, or 0 and 0 where there is none
 * index: the place of a record plus one, or 0 for none
 */

/* Regions of words; MOST is how many records there can be. */
#define INP_NODES_AT 0
#define INP_NODES_WIDTH 8
#define INP_NODES_MOST 256
#define INP_LINKS_AT 2048
#define INP_LINKS_WIDTH 9
#define INP_LINKS_MOST 256
#define INP_CURVES_AT 4352
#define INP_CURVES_WIDTH 3
#define INP_CURVES_MOST 64
#define INP_POINTS_AT 4544
#define INP_POINTS_WIDTH 1
#define INP_POINTS_MOST 1024
#define INP_PATTERNS_AT 5568
#define INP_PATTERNS_WIDTH 3
#define INP_PATTERNS_MOST 64
#define INP_MULTIPLIERS_AT 5760
#define INP_MULTIPLIERS_WIDTH 1
#define INP_MULTIPLIERS_MOST 2048
#define INP_DEMANDS_AT 7808
#define INP_DEMANDS_WIDTH 5
#define INP_DEMANDS_MOST 512
#define INP_TIMES_AT 10368
#define INP_TIMES_WIDTH 2
#define INP_TIMES_MOST 6
#define INP_RULES_AT 10380
#define INP_RULES_WIDTH 7
#define INP_RULES_MOST 64
#define INP_CLAUSES_AT 10828
#define INP_CLAUSES_WIDTH 7
#define INP_CLAUSES_MOST 512
/* Between the clauses and the counts stand slots that only the library needs. The counts are one record. */
#define INP_COUNTS_AT 17128
#define INP_COUNTS_WIDTH 9

/* Regions of numbers, for the same records. */
#define INP_NODE_NUMBERS_AT 0
#define INP_NODE_NUMBERS_WIDTH 8
#define INP_LINK_NUMBERS_AT 2048
#define INP_LINK_NUMBERS_WIDTH 4
#define INP_POINT_NUMBERS_AT 3072
#define INP_POINT_NUMBERS_WIDTH 2
#define INP_MULTIPLIER_NUMBERS_AT 5120
#define INP_MULTIPLIER_NUMBERS_WIDTH 1
#define INP_DEMAND_NUMBERS_AT 7168
#define INP_DEMAND_NUMBERS_WIDTH 1
#define INP_CLAUSE_NUMBERS_AT 7680
#define INP_CLAUSE_NUMBERS_WIDTH 1

/* The counts at INP_COUNTS_AT. */
#define INP_COUNT_NODES 0
#define INP_COUNT_LINKS 1
#define INP_COUNT_CURVES 2
#define INP_COUNT_POINTS 3
#define INP_COUNT_PATTERNS 4
#define INP_COUNT_MULTIPLIERS 5
#define INP_COUNT_DEMANDS 6
#define INP_COUNT_RULES 7
#define INP_COUNT_CLAUSES 8

/* Every record that has an id (node, link, curve, pattern, rule) begins with it. */
#define INP_ID_PLACE 0
#define INP_ID_LENGTH 1

/* A node's words. Its name is a reservoir's pattern or a tank's curve. Its detail is a junction's disabled flag, the
 * index of a reservoir's pattern, or a tank's overflow flag. */
#define INP_NODE_KIND 3 /* enum inp_node_kind */
#define INP_NODE_NAME_PLACE 4
#define INP_NODE_NAME_LENGTH 5
#define INP_NODE_DETAIL 6
#define INP_NODE_PLACED 7 /* 1 where it has coordinates */
enum inp_node_kind { INP_JUNCTION = 1, INP_RESERVOIR = 2, INP_TANK = 3 };

/* A node's numbers. */
#define INP_NODE_ELEVATION 0
#define INP_JUNCTION_EMITTER 1
#define INP_TANK_INITIAL_LEVEL 1
#define INP_TANK_MINIMUM_LEVEL 2
#define INP_TANK_MAXIMUM_LEVEL 3
#define INP_TANK_DIAMETER 4
#define INP_TANK_MINIMUM_VOLUME 5
#define INP_NODE_X 6
#define INP_NODE_Y 7

/* A link's words. Start and end are places of nodes. Its detail is an enum inp_pipe_status, 0 for a pump, or an
 * enum inp_valve_type. Its name is a pump's head curve or a valve's curve. */
#define INP_LINK_START 3
#define INP_LINK_END 4
#define INP_LINK_KIND 5 /* enum inp_link_kind */
#define INP_LINK_DETAIL 6
#define INP_LINK_NAME_PLACE 7
#define INP_LINK_NAME_LENGTH 8
enum inp_link_kind { INP_PIPE = 1, INP_PUMP = 2, INP_VALVE = 3 };
enum inp_pipe_status { INP_PIPE_OPEN = 1, INP_PIPE_CLOSED = 2, INP_PIPE_CHECK_VALVE = 3 };
enum inp_valve_type {
    INP_GPV = 1, INP_TCV = 2, INP_FCV = 3, INP_PRV = 4, INP_PSV = 5, INP_PBV = 6, INP_PCV = 7
};

/* A link's numbers. */
#define INP_PIPE_LENGTH 0
#define INP_PIPE_DIAMETER 1
#define INP_PIPE_ROUGHNESS 2
#define INP_PIPE_MINOR_LOSS 3
#define INP_PUMP_SPEED 0
#define INP_PUMP_POWER 1
#define INP_VALVE_SETTING 0
#define INP_VALVE_DIAMETER 1
#define INP_VALVE_MINOR_LOSS 3

/* A point's word is the place of its curve, its numbers are x and y. A multiplier's word is the place of its pattern.
 * Those of one curve or pattern need not stand side by side. */
#define INP_POINT_X 0
#define INP_POINT_Y 1

/* A demand's words; its number is the base demand. */
#define INP_DEMAND_NODE 0
#define INP_DEMAND_OWN 1 /* 1 for that of the junction's own line, which its first line of DEMANDS replaces */
#define INP_DEMAND_NAME_PLACE 2
#define INP_DEMAND_NAME_LENGTH 3
#define INP_DEMAND_INDEX 4 /* of its pattern */

/* The six times, each with two words: 1 where it was set, and seconds. */
#define INP_TIME_SET 0
#define INP_TIME_SECONDS 1
enum inp_time {
    INP_DURATION = 0,
    INP_HYDRAULIC_TIMESTEP = 1,
    INP_PATTERN_TIMESTEP = 2,
    INP_REPORT_TIMESTEP = 3,
    INP_PATTERN_START = 4,
    INP_START_CLOCKTIME = 5
};

/* A rule's words. Its clauses are INP_RULE_COUNT of them from the place INP_RULE_FIRST on, in the order of its lines. */
#define INP_RULE_FIRST 3
#define INP_RULE_COUNT 4
#define INP_RULE_PRIORITY_SET 5
#define INP_RULE_PRIORITY 6

/* A clause is a condition or an action. Its number is the value it compares with or the setting it gives, and 0 where it
 * has a status. */
#define INP_CLAUSE_KIND 0   /* enum inp_clause_kind */
#define INP_CLAUSE_STATUS 4 /* enum inp_link_status */
#define INP_CLAUSE_NAME_PLACE 5
#define INP_CLAUSE_NAME_LENGTH 6
#define INP_CONDITION_OPERATOR 1   /* enum inp_operator */
#define INP_CONDITION_TARGET 2     /* enum inp_target */
#define INP_CONDITION_COMPARISON 3 /* enum inp_comparison */
#define INP_ACTION_ELSE 1          /* 1 for an action under ELSE, 0 for one under THEN */
#define INP_ACTION_LINK 2          /* the place of the link */
enum inp_clause_kind { INP_CONDITION = 1, INP_ACTION = 2 };
enum inp_link_status { INP_NO_STATUS = 0, INP_STATUS_OPEN = 1, INP_STATUS_CLOSED = 2, INP_STATUS_ACTIVE = 3 };
enum inp_operator { INP_AND = 1, INP_OR = 2 };
enum inp_target {
    INP_SYSTEM_DEMAND = 1, INP_SYSTEM_TIME = 2, INP_SYSTEM_CLOCKTIME = 3,
    INP_NODE_DEMAND = 4, INP_NODE_HEAD = 5, INP_NODE_PRESSURE = 6,
    INP_TANK_LEVEL = 7, INP_TANK_FILLTIME = 8, INP_TANK_DRAINTIME = 9,
    INP_LINK_FLOW = 10, INP_LINK_STATUS = 11, INP_LINK_SETTING = 12
};
enum inp_comparison {
    INP_EQUAL = 1, INP_NOT_EQUAL = 2, INP_ABOVE = 3, INP_BELOW = 4, INP_AT_LEAST = 5, INP_AT_MOST = 6
};

#ifdef __cplusplus
}
#endif

#endif
