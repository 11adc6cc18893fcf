// Calls the library's two functions from C, on stored cases, and prints of each case whether it is as it should be. Ends
// with status 0 if all are, else with 1.
//
// lekhnop.h has the declarations of docs/boundary.md. What is right is worked by hand from docs/model.md, docs/formats.md
// and docs/refusals.md. If two parameters or two fields change places, a case is no longer as it should be.
#include <stdbool.h>
#include <stddef.h>
#include <stdint.h>
#include <stdio.h>
#include <stdlib.h>
#include <string.h>

#include "lekhnop.h"

_Static_assert(offsetof(struct grown, number) == 0, "number comes first");
_Static_assert(offsetof(struct grown, settled) == 1, "settled comes second");
_Static_assert(offsetof(struct grown, layer) == 2, "layer comes third");
_Static_assert(offsetof(struct grown, place) == 8 && sizeof(struct grown) == 16, "place comes last");

struct bytes {
    const uint8_t *first;
    size_t count;
};

#define BYTES(text) {(const uint8_t *)(text), sizeof(text) - 1}

// The lift of docs/model.md.
#define LIFT                                                \
    "TK" "\x02" "\x05\x04"                                  \
    "AC" "\x08" "\x00\x02\x01\x01" "\x00\x02" "\x03" "\x02" \
    "AC" "\x07" "\x00\x01\x01\x01" "\x00" "\x01" "\x00"     \
    "AC" "\x08" "\x00\x02\x01\x01" "\x01\x03" "\x04" "\x03" \
    "AC" "\x07" "\x00\x01\x01\x01" "\x01" "\x00" "\x01"     \
    "ST" "\x02" "\x00\x02"                                  \
    "GO" "\x02" "\x00\x04"

// The twin of docs/model.md, with both jobs in this zone.
#define TWIN(zone)                                         \
    "TK" "\x02" "\x04\x02"                                 \
    "AC" "\x07" zone "\x01\x01\x01" "\x00" "\x01" "\x00"   \
    "AC" "\x07" zone "\x01\x01\x01" "\x02" "\x03" "\x02"   \
    "ST" "\x02" "\x00\x02"                                 \
    "GO" "\x02" "\x01\x03"

// A task file whose goal, the record at byte 8, doesn't rise.
#define UNORDERED_GOAL "TK" "\x02" "\x05\x00" "ST" "\x00" "GO" "\x02" "\x01\x01"

#define ROUND(job) "RD" "\x01" job

// What memory that is handed over holds, and how much of it there is.
enum { OLD_BYTE = '#', OLD_ENTRY = 4242, MOST_BYTES = 64, MOST_ENTRIES = 20 };

struct report_case {
    const char *name;
    struct bytes task_file, plan_file;
    size_t room;
    bool lacks_memory;
    const char *text;
};

static const struct report_case REPORTS[] = {
    {
        .name = "report-with-room-to-spare",
        .task_file = BYTES(LIFT),
        .plan_file = BYTES(ROUND("\x00") ROUND("\x01") ROUND("\x02") ROUND("\x03")),
        .room = MOST_BYTES,
        .text = "rounds 4\ndistance 4\nverdict sound\nshortest yes\n",
    },
    {
        .name = "report-with-just-enough-room",
        .task_file = BYTES(LIFT),
        .plan_file = BYTES(ROUND("\x00") ROUND("\x02")),
        .room = 54,
        .text = "rounds 2\ndistance 4\nverdict missing 1 2 1\nshortest no\n",
    },
    {
        .name = "report-with-a-byte-too-few",
        .task_file = BYTES(LIFT),
        .plan_file = BYTES(ROUND("\x00") ROUND("\x02")),
        .room = 53,
        .text = "rounds 2\ndistance 4\nverdict missing 1 2 1\nshortest no\n",
    },
    {
        .name = "report-without-room",
        .task_file = BYTES(LIFT),
        .plan_file = BYTES(""),
        .room = 0,
        .text = "rounds 0\ndistance 4\nverdict goal 4\nshortest no\n",
    },
    {
        .name = "report-without-memory",
        .task_file = BYTES(LIFT),
        .plan_file = BYTES(""),
        .room = MOST_BYTES,
        .lacks_memory = true,
    },
    {
        .name = "report-on-a-task-file-at-fault",
        .task_file = BYTES(UNORDERED_GOAL),
        .plan_file = BYTES(ROUND("\x04")),
        .room = MOST_BYTES,
        .text = "task refused 6 8\n",
    },
    {
        .name = "report-on-a-sheet-file-at-fault",
        .task_file = BYTES(LIFT),
        .plan_file = BYTES(ROUND("\x00") ROUND("\x04")),
        .room = MOST_BYTES,
        .text = "plan refused 10 4\n",
    },
};

struct table_case {
    const char *name;
    struct bytes task_file;
    uint8_t pile;
    struct bytes withheld, start;
    uint8_t rule;
    uint16_t growings;
    size_t entries;
    struct grown grown;
    size_t written;
    uint16_t table[MOST_ENTRIES];
};

// The entry of a pair that isn't in the book's layer. The rows below have the pairs {0, q} to {q, q}, for q from 0.
#define NO 65535

static const struct table_case TABLES[] = {
    {
        .name = "lift-settled",
        .task_file = BYTES(LIFT),
        .pile = 0, .withheld = BYTES("\x03"), .start = BYTES("\x01\x04"),
        .rule = 0, .growings = 257, .entries = MOST_ENTRIES,
        .grown = {.number = 0, .settled = true, .layer = 4, .place = 0},
        .written = 15,
        .table = {
            0,
            NO, 1,
            0, 1, 0,
            1, 2, NO, 1,
            4, 3, NO, NO, 3,
        },
    },
    {
        .name = "lift-after-three-growings",
        .task_file = BYTES(LIFT),
        .pile = 0, .withheld = BYTES("\x03"), .start = BYTES("\x01\x04"),
        .rule = 0, .growings = 3, .entries = 15,
        .grown = {.number = 0, .settled = false, .layer = 3, .place = 0},
        .written = 15,
        .table = {
            0,
            NO, 1,
            0, 1, 0,
            1, 2, NO, 1,
            NO, 3, NO, NO, 3,
        },
    },
    {
        .name = "lift-opened-alone",
        .task_file = BYTES(LIFT),
        .pile = 0, .withheld = BYTES(""), .start = BYTES(""),
        .rule = 0, .growings = 0, .entries = 15,
        .grown = {.number = 0, .settled = false, .layer = 0, .place = 0},
        .written = 15,
        .table = {
            0,
            NO, NO,
            0, NO, 0,
            NO, NO, NO, NO,
            NO, NO, NO, NO, NO,
        },
    },
    {
        .name = "lift-withheld",
        .task_file = BYTES(LIFT),
        .pile = 1, .withheld = BYTES("\xC8\x03\x03"), .start = BYTES("\x01\x04"),
        .rule = 0, .growings = 9, .entries = 16,
        .grown = {.number = 0, .settled = true, .layer = 3, .place = 0},
        .written = 15,
        .table = {
            0,
            NO, 1,
            0, 1, 0,
            1, 2, NO, 1,
            NO, 3, NO, NO, 3,
        },
    },
    {
        .name = "lift-moved",
        .task_file = BYTES(LIFT),
        .pile = 2, .withheld = BYTES("\x03"), .start = BYTES("\x04\x64\x01\x04"),
        .rule = 0, .growings = 9, .entries = 16,
        .grown = {.number = 0, .settled = true, .layer = 1, .place = 0},
        .written = 15,
        .table = {
            1,
            NO, 0,
            NO, NO, NO,
            NO, NO, NO, NO,
            1, 0, NO, NO, 0,
        },
    },
    {
        .name = "lift-withheld-over-moved",
        .task_file = BYTES(LIFT),
        .pile = 3, .withheld = BYTES("\x03"), .start = BYTES("\x01\x04"),
        .rule = 0, .growings = 9, .entries = 16,
        .grown = {.number = 0, .settled = true, .layer = 0, .place = 0},
        .written = 15,
        .table = {
            NO,
            NO, 0,
            NO, NO, NO,
            NO, NO, NO, NO,
            NO, 0, NO, NO, 0,
        },
    },
    {
        .name = "lift-moved-over-withheld",
        .task_file = BYTES(LIFT),
        .pile = 255, .withheld = BYTES("\x03"), .start = BYTES("\x01\x04"),
        .rule = 0, .growings = 9, .entries = 16,
        .grown = {.number = 0, .settled = true, .layer = 0, .place = 0},
        .written = 15,
        .table = {
            NO,
            NO, 0,
            NO, NO, NO,
            NO, NO, NO, NO,
            NO, 0, NO, NO, 0,
        },
    },
    {
        .name = "twin-of-one-zone-apart",
        .task_file = BYTES(TWIN("\x07")),
        .pile = 0, .withheld = BYTES("\x01"), .start = BYTES("\x01\x02"),
        .rule = 0, .growings = 9, .entries = 16,
        .grown = {.number = 0, .settled = true, .layer = 1, .place = 0},
        .written = 10,
        .table = {
            0,
            NO, 1,
            0, 1, 0,
            1, 1, NO, 1,
        },
    },
    {
        .name = "twin-single-file-after-two-growings",
        .task_file = BYTES(TWIN("\x00")),
        .pile = 0, .withheld = BYTES("\x01"), .start = BYTES("\x01\x02"),
        .rule = 1, .growings = 2, .entries = 10,
        .grown = {.number = 0, .settled = false, .layer = 2, .place = 0},
        .written = 10,
        .table = {
            0,
            NO, 1,
            0, 1, 0,
            1, 2, NO, 1,
        },
    },
    {
        .name = "twin-of-no-zone-zoned",
        .task_file = BYTES(TWIN("\x00")),
        .pile = 0, .withheld = BYTES("\x01"), .start = BYTES("\x01\x02"),
        .rule = 2, .growings = 9, .entries = 16,
        .grown = {.number = 0, .settled = true, .layer = 1, .place = 0},
        .written = 10,
        .table = {
            0,
            NO, 1,
            0, 1, 0,
            1, 1, NO, 1,
        },
    },
    {
        .name = "twin-of-one-zone-zoned",
        .task_file = BYTES(TWIN("\x07")),
        .pile = 0, .withheld = BYTES("\x01"), .start = BYTES("\x01\x02"),
        .rule = 255, .growings = 9, .entries = 16,
        .grown = {.number = 0, .settled = true, .layer = 2, .place = 0},
        .written = 10,
        .table = {
            0,
            NO, 1,
            0, 1, 0,
            1, 2, NO, 1,
        },
    },
    {
        .name = "twin-withheld-zoned",
        .task_file = BYTES(TWIN("\x00")),
        .pile = 1, .withheld = BYTES("\x01"), .start = BYTES("\x01\x02"),
        .rule = 2, .growings = 9, .entries = 16,
        .grown = {.number = 0, .settled = true, .layer = 1, .place = 0},
        .written = 10,
        .table = {
            0,
            NO, 1,
            0, 1, 0,
            NO, NO, NO, NO,
        },
    },
    {
        .name = "table-with-an-entry-too-few",
        .task_file = BYTES(LIFT),
        .pile = 0, .withheld = BYTES("\x03"), .start = BYTES("\x01\x04"),
        .rule = 0, .growings = 9, .entries = 14,
        .grown = {.number = 9, .settled = false, .layer = 0, .place = 0},
    },
    {
        .name = "task-file-at-fault-and-too-few-entries",
        .task_file = BYTES(UNORDERED_GOAL),
        .pile = 0, .withheld = BYTES("\x03"), .start = BYTES("\x01\x04"),
        .rule = 0, .growings = 9, .entries = 14,
        .grown = {.number = 6, .settled = false, .layer = 0, .place = 8},
    },
};

// The library asks these for memory in place of malloc and realloc: the linker's option --wrap names them.
static bool lacks_memory = false;

void *__real_malloc(size_t count);
void *__real_realloc(void *block, size_t count);
void *__wrap_malloc(size_t count);
void *__wrap_realloc(void *block, size_t count);

void *__wrap_malloc(size_t count)
{
    return lacks_memory ? NULL : __real_malloc(count);
}

void *__wrap_realloc(void *block, size_t count)
{
    return lacks_memory ? NULL : __real_realloc(block, count);
}

static bool tells_report(const struct report_case *c)
{
    uint8_t text[MOST_BYTES], right[MOST_BYTES];
    size_t result = c->lacks_memory ? SIZE_MAX : strlen(c->text);
    memset(text, OLD_BYTE, sizeof text);
    memset(right, OLD_BYTE, sizeof right);
    if (result <= c->room)
        memcpy(right, c->text, result);

    lacks_memory = c->lacks_memory;
    size_t told = lekhnop_report(c->task_file.first, c->task_file.count,
                                 c->plan_file.first, c->plan_file.count,
                                 text, c->room);
    lacks_memory = false;

    bool is_right = told == result && memcmp(text, right, sizeof text) == 0;
    if (!is_right)
        printf("boundary %s: result %zu, text \"%.*s\"\n", c->name, told, MOST_BYTES, text);
    return is_right;
}

static bool tells_table(const struct table_case *c)
{
    uint16_t table[MOST_ENTRIES], right[MOST_ENTRIES];
    for (size_t entry = 0; entry < MOST_ENTRIES; entry++) {
        table[entry] = OLD_ENTRY;
        right[entry] = entry < c->written ? c->table[entry] : OLD_ENTRY;
    }
    struct grown grown = {.number = OLD_BYTE, .settled = !c->grown.settled, .layer = OLD_ENTRY, .place = SIZE_MAX};

    lekhnop_table(c->task_file.first, c->task_file.count, c->pile,
                  c->withheld.first, c->withheld.count,
                  c->start.first, c->start.count,
                  c->rule, c->growings,
                  table, c->entries, &grown);

    // (as a byte, since what stands there may be neither 0 nor 1)
    uint8_t settled;
    memcpy(&settled, &grown.settled, 1);
    bool is_right = grown.number == c->grown.number && settled == c->grown.settled && grown.layer == c->grown.layer
        && grown.place == c->grown.place && memcmp(table, right, sizeof table) == 0;
    if (!is_right) {
        printf("boundary %s: number %d, settled %d, layer %d, place %zu, entries", c->name,
               grown.number, settled, grown.layer, grown.place);
        for (size_t entry = 0; entry < MOST_ENTRIES; entry++)
            printf(" %d", table[entry]);
        printf("\n");
    }
    return is_right;
}

static bool is_told(const char *name, bool is_right)
{
    if (is_right)
        printf("boundary %s: as it should be\n", name);
    return is_right;
}

int main(void)
{
    bool all = true;
    // (a call that goes astray may end the program)
    setvbuf(stdout, NULL, _IOLBF, 0);
    for (size_t at = 0; at < sizeof REPORTS / sizeof REPORTS[0]; at++)
        all &= is_told(REPORTS[at].name, tells_report(&REPORTS[at]));
    for (size_t at = 0; at < sizeof TABLES / sizeof TABLES[0]; at++)
        all &= is_told(TABLES[at].name, tells_table(&TABLES[at]));
    return all ? EXIT_SUCCESS : EXIT_FAILURE;
}
