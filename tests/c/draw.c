/* Calls perlwynos_draw from C: accepted requests, refusals, empty texts by NULL
 * and by a pointer, and slices one element short. Says nothing where all is as it
 * should be, and ends with status 1 where something is not.
 */
#include <perlwynos.h>
#include <stdio.h>
#include <string.h>

enum { LINE_ROOM = 512, INDEX_ROOM = 128, UNTOUCHED = 0xA5 };

struct request {
    const char *class_code;
    uint8_t swap;
    const char *tail;
    size_t count;
    const char *sn[4];
};

struct answer {
    uint32_t number;
    uint32_t report[PERLWYNOS_REPORT];
    uint8_t line[LINE_ROOM];
    uint16_t index[INDEX_ROOM];
};

static int failures;

static void check(int holds, const char *name, const char *what)
{
    if (!holds) {
        printf("tests/c/draw.c: %s: %s\n", name, what);
        failures++;
    }
}

static const uint8_t *bytes(const char *text)
{
    return (const uint8_t *)text;
}

static size_t length_of(const char *text)
{
    return text ? strlen(text) : 0;
}

/* The answer to a request, with so much room in both slices. */
static struct answer ask(const struct request *r, size_t line_room, size_t index_room)
{
    struct answer a;
    memset(&a, UNTOUCHED, sizeof a);
    a.number = perlwynos_draw(
        bytes(r->class_code), length_of(r->class_code), r->swap, bytes(r->tail), length_of(r->tail),
        r->count, bytes(r->sn[0]), length_of(r->sn[0]), bytes(r->sn[1]), length_of(r->sn[1]),
        bytes(r->sn[2]), length_of(r->sn[2]), bytes(r->sn[3]), length_of(r->sn[3]), a.line,
        line_room, a.index, index_room, a.report);
    return a;
}

/* Whether both slices are as they were from these places on. */
static int untouched(const struct answer *a, size_t line_from, size_t index_from)
{
    const uint8_t *index = (const uint8_t *)a->index;
    size_t i;
    for (i = line_from; i < LINE_ROOM; i++)
        if (a->line[i] != UNTOUCHED)
            return 0;
    for (i = index_from * sizeof(uint16_t); i < sizeof a->index; i++)
        if (index[i] != UNTOUCHED)
            return 0;
    return 1;
}

static void refused(const char *name, struct request r, uint32_t number, uint32_t token)
{
    struct answer a = ask(&r, LINE_ROOM, INDEX_ROOM);
    uint32_t report[PERLWYNOS_REPORT] = {0};
    report[PERLWYNOS_NUMBER] = number;
    report[PERLWYNOS_TOKEN] = token;
    check(a.number == number, name, "another number");
    check(memcmp(a.report, report, sizeof report) == 0, name, "another report");
    check(untouched(&a, 0, 0), name, "a slice was altered");
}

static void accepted(const char *name, struct request r, const char *line,
                     const uint32_t report[PERLWYNOS_REPORT], const uint16_t *index, size_t indices)
{
    struct answer a = ask(&r, LINE_ROOM, INDEX_ROOM);
    size_t length = strlen(line);
    check(a.number == PERLWYNOS_ACCEPTED, name, "refused");
    check(memcmp(a.report, report, sizeof a.report) == 0, name, "another report");
    check(memcmp(a.line, line, length) == 0, name, "another line");
    check(memcmp(a.index, index, indices * sizeof *index) == 0, name, "other indices");
    check(untouched(&a, length, indices), name, "written past the end");

    a = ask(&r, length, indices);
    check(a.number == PERLWYNOS_ACCEPTED, name, "refused with room enough");
    a = ask(&r, length - 1, indices);
    check(a.number == PERLWYNOS_SHORT_SLICE, name, "accepted in a line too short");
    check(untouched(&a, 0, 0), name, "a slice was altered for a line too short");
    a = ask(&r, length, indices - 1);
    check(a.number == PERLWYNOS_SHORT_SLICE, name, "accepted in an index too short");
    check(untouched(&a, 0, 0), name, "a slice was altered for an index too short");
}

int main(void)
{
    static const uint16_t oleic[] = {1, 3, 4, 5, 6, 7, 8, 9, 10, 11, 12, 13, 14, 15, 16, 17, 18, 19};
    static const uint16_t swapped[] = {9, 11, 4, 6};
    static const uint16_t base[] = {1, 0, 7, 9, 4, 6};
    struct request none = {NULL, 0, NULL, 0, {NULL, NULL, NULL, NULL}};
    struct answer a;

    accepted("oleic acid", (struct request){"FA", 0, NULL, 1, {"18:1(9Z)", NULL, NULL, NULL}},
             "OC(=O)CCCCCCC/C=C\\CCCCCCCC",
             (const uint32_t[PERLWYNOS_REPORT]){0, 0, 26, 1, 1, 18, 0, 0, 0, 0, 0, 0, 1, 1, 1}, oleic,
             18);
    accepted("two chains, swap by any flag that is not 0",
             (struct request){"GP", 255, "O", 2, {"2:0", "2:0", "", ""}},
             "C(CO)(OC(=O)C)COC(=O)C |$;;;sn2;;;;;sn1$| swappable(sn1,sn2)",
             (const uint32_t[PERLWYNOS_REPORT]){0, 0, 60, 2, 1, 2, 2, 2, 0, 0, 0, 0, 2, 1, 8, 2, 3},
             swapped, 4);
    accepted("a base", (struct request){"SA", 0, "O", 2, {"d4:0", "2:0", NULL, NULL}},
             "C(CO)(NC(=O)C)C(O)C",
             (const uint32_t[PERLWYNOS_REPORT]){0, 0, 19, 2, 1, 4, 2, 2, 0, 0, 0, 0, 1, 2, 4}, base, 6);

    refused("no class", none, PERLWYNOS_UNKNOWN_CLASS, 0);
    refused("no tokens", (struct request){"FA", 0, NULL, 0, {NULL, NULL, NULL, NULL}},
            PERLWYNOS_WRONG_COUNT, 0);
    refused("five tokens", (struct request){"CL", 0, NULL, 5, {"2:0", "2:0", "2:0", "2:0"}},
            PERLWYNOS_WRONG_COUNT, 0);
    refused("unreadable", (struct request){"GL2", 0, NULL, 2, {"16:0", "sixteen", NULL, NULL}},
            PERLWYNOS_UNREADABLE, 2);
    refused("a tail where there is none", (struct request){"FA", 0, "O", 1, {"2:0", "", "", ""}},
            PERLWYNOS_WRONG_TAIL, 0);

    /* no room at all, by NULL */
    a.number = perlwynos_draw(bytes("FA"), 2, 0, NULL, 0, 1, bytes("2:0"), 3, NULL, 0, NULL, 0, NULL,
                              0, NULL, 0, NULL, 0, a.report);
    check(a.number == PERLWYNOS_SHORT_SLICE, "no room", "not refused");

    return failures != 0;
}
