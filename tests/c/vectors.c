/* Runs stored requests through perlwynos_draw and holds answer, token place, line,
 * indices and sn sites to the stored answers of the original, four times each: with
 * long slices that hold a pattern, with slices exactly as long as needed, with a line
 * slice one byte shorter and with an index slice one number shorter. What a call has
 * to leave alone must still hold the pattern.
 *
 *   vectors SHEET ANSWERS [SITES]
 *
 * The sheet has the columns class, swap, tail, sn1 to sn4. Rows whose stored answer is
 * 42 are the batch program's and are passed over. Says on standard error how many rows
 * agreed; ends with status 1 at the first that does not.
 */
#include <perlwynos.h>
#include <stdio.h>
#include <stdlib.h>
#include <string.h>

enum { LINE_ROOM = 65536, INDEX_ROOM = 4096, CELLS = 7, TEXT_ROOM = 131072, BYTE = 0xA5, NUMBER = 0xA5A5 };

struct text {
    char *bytes;
    size_t length;
};

struct row {
    const uint8_t *cell[CELLS];
    size_t length[CELLS];
    size_t count;
};

static uint8_t line[LINE_ROOM];
static uint16_t index_list[INDEX_ROOM];
static uint32_t report[PERLWYNOS_REPORT];

static struct text read_file(const char *name)
{
    struct text t = {NULL, 0};
    FILE *f = fopen(name, "rb");
    if (f == NULL || fseek(f, 0, SEEK_END) != 0) {
        fprintf(stderr, "vectors: cannot read %s\n", name);
        exit(1);
    }
    t.length = (size_t)ftell(f);
    rewind(f);
    t.bytes = malloc(t.length + 1);
    if (t.bytes == NULL || fread(t.bytes, 1, t.length, f) != t.length) {
        fprintf(stderr, "vectors: cannot read %s\n", name);
        exit(1);
    }
    t.bytes[t.length] = '\0';
    fclose(f);
    return t;
}

/* The next line of a text without its LF; 0 where there is none. */
static int next_line(const struct text *t, size_t *at, const char **start, size_t *length)
{
    const char *end;
    if (*at >= t->length)
        return 0;
    *start = t->bytes + *at;
    end = memchr(*start, '\n', t->length - *at);
    *length = end == NULL ? t->length - *at : (size_t)(end - *start);
    *at += *length + 1;
    return 1;
}

static int read_row(const char *start, size_t length, struct row *r)
{
    size_t n = 0, from = 0, i;
    for (i = 0; i <= length; i++) {
        if (i < length && start[i] != '\t')
            continue;
        if (n == CELLS)
            return 0;
        r->cell[n] = (const uint8_t *)start + from;
        r->length[n] = i - from;
        n++;
        from = i + 1;
    }
    r->count = 0;
    for (i = 3; i < CELLS; i++)
        if (r->length[i] != 0)
            r->count = i - 2;
    return n == CELLS;
}

static uint32_t call(const struct row *r, size_t line_length, size_t index_length)
{
    size_t i;
    memset(line, BYTE, sizeof line);
    for (i = 0; i < INDEX_ROOM; i++)
        index_list[i] = NUMBER;
    return perlwynos_draw(r->cell[0], r->length[0], r->length[1] == 1 && r->cell[1][0] == '1', r->cell[2], r->length[2], r->count,
                          r->cell[3], r->length[3], r->cell[4], r->length[4], r->cell[5], r->length[5], r->cell[6], r->length[6],
                          line, line_length, index_list, index_length, report);
}

/* Whether the slices hold the pattern from these places on. */
static int left_alone(size_t line_from, size_t index_from)
{
    size_t i;
    for (i = line_from; i < LINE_ROOM; i++)
        if (line[i] != BYTE)
            return 0;
    for (i = index_from; i < INDEX_ROOM; i++)
        if (index_list[i] != NUMBER)
            return 0;
    return 1;
}

/* The row that the batch program prints for the answer, and how many indices it lists. */
static size_t show(char *out, size_t *indices)
{
    size_t n = (size_t)sprintf(out, "%u\t%u\t", (unsigned)report[0], (unsigned)report[1]), c, k;
    memcpy(out + n, line, report[2]);
    n += report[2];
    out[n++] = '\t';
    *indices = 0;
    for (c = 0; c < report[3]; c++) {
        n += (size_t)sprintf(out + n, c == 0 ? "%u:" : ";%u:", (unsigned)report[4 + 2 * c]);
        for (k = 0; k < report[5 + 2 * c]; k++)
            n += (size_t)sprintf(out + n, k == 0 ? "%u" : ".%u", (unsigned)index_list[(*indices)++]);
    }
    return n;
}

static size_t show_sites(char *out)
{
    size_t n = 0, c;
    for (c = 0; c < report[12]; c++)
        n += (size_t)sprintf(out + n, c == 0 ? "%u:%u" : ";%u:%u", (unsigned)report[13 + 2 * c], (unsigned)report[14 + 2 * c]);
    return n;
}

static int short_of_room(const struct row *r, size_t line_length, size_t index_length)
{
    size_t i;
    if (call(r, line_length, index_length) != 41 || report[0] != 41)
        return 0;
    for (i = 1; i < PERLWYNOS_REPORT; i++)
        if (report[i] != 0)
            return 0;
    return left_alone(0, 0);
}

/* Why a row does not agree; NULL where it does. */
static const char *judge(const struct row *r, const char *expected, size_t expected_length, const char *sites, size_t sites_length)
{
    static char out[TEXT_ROOM], again[TEXT_ROOM];
    size_t indices, repeated, length, n = 0;
    uint32_t number = call(r, LINE_ROOM, INDEX_ROOM);
    length = report[2];
    if (number != report[0])
        return "result";
    n = show(out, &indices);
    if (n != expected_length || memcmp(out, expected, n) != 0)
        return "answer, line or indices";
    if (!left_alone(length, indices))
        return "what lies behind";
    if (sites != NULL && (show_sites(again) != sites_length || memcmp(again, sites, sites_length) != 0))
        return "sn sites";
    if (number != 0)
        return NULL;
    if (call(r, length, indices) != 0 || show(again, &repeated) != n || memcmp(again, out, n) != 0 || !left_alone(length, indices))
        return "slices exactly as long as needed";
    if (!short_of_room(r, length - 1, indices))
        return "a line slice one byte shorter";
    if (indices > 0 && !short_of_room(r, length, indices - 1))
        return "an index slice one number shorter";
    return NULL;
}

int main(int argc, char **argv)
{
    struct text sheet, answers, sites = {NULL, 0};
    size_t at = 0, answer_at = 0, site_at = 0, rows = 0, accepted = 0;
    const char *start, *expected, *site = NULL;
    size_t length, expected_length, site_length = 0;
    struct row r;
    if (argc < 3 || argc > 4) {
        fprintf(stderr, "usage: vectors SHEET ANSWERS [SITES]\n");
        return 2;
    }
    sheet = read_file(argv[1]);
    answers = read_file(argv[2]);
    if (argc == 4)
        sites = read_file(argv[3]);
    if (!next_line(&sheet, &at, &start, &length) || !next_line(&answers, &answer_at, &expected, &expected_length))
        return 1;
    while (next_line(&sheet, &at, &start, &length)) {
        const char *why;
        if (!next_line(&answers, &answer_at, &expected, &expected_length) || (argc == 4 && !next_line(&sites, &site_at, &site, &site_length))) {
            fprintf(stderr, "vectors: there is no stored answer for %.*s\n", (int)length, start);
            return 1;
        }
        if (expected_length > 2 && memcmp(expected, "42\t", 3) == 0)
            continue;
        why = read_row(start, length, &r) ? judge(&r, expected, expected_length, site, site_length) : "cells";
        if (why != NULL) {
            fprintf(stderr, "vectors: %.*s: %s\n", (int)length, start, why);
            return 1;
        }
        rows++;
        accepted += report[0] == 0 || expected[0] == '0';
    }
    fprintf(stderr, "vectors: %s: %lu rows agree, %lu of them accepted\n", argv[1], (unsigned long)rows, (unsigned long)accepted);
    return rows > 0 ? 0 : 1;
}
