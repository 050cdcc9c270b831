/* Perlwynos: chain names of lipids to one CXSMILES line with the atom number of
 * every chain carbon. The library is target/staticlib/libcapi.a, written by
 * tools/build/staticlib for x86-64 Linux, or lib/libperlwynos.a of a release; it
 * allocates nothing, keeps nothing between calls and may be called from several
 * threads at once.
 */
#ifndef PERLWYNOS_H
#define PERLWYNOS_H

#include <stddef.h>
#include <stdint.h>

#ifdef __cplusplus
extern "C" {
#endif

#define PERLWYNOS_VERSION "0.2.0"

/* How many numbers `report` must have room for, and where each stands in it.
 * A place that is not used holds 0.
 */
enum {
    PERLWYNOS_REPORT = 21,

    PERLWYNOS_NUMBER = 0, /* 0: accepted; else the number of the refusal */
    PERLWYNOS_TOKEN = 1,  /* refused: the place of the token, from 1; 0 where no token is meant */
    PERLWYNOS_LENGTH = 2, /* accepted: the bytes of the line */
    PERLWYNOS_LISTS = 3,  /* accepted: how many chains have an index list, up to four */
    PERLWYNOS_LIST = 4,   /* four pairs: the sn of a chain, and how many indices it has */
    PERLWYNOS_SITES = 12, /* accepted: how many sn sites there are, up to four */
    PERLWYNOS_SITE = 13   /* four pairs: the sn of a site, and its atom in the line, from 0 */
};

/* The numbers of the refusals. */
enum {
    PERLWYNOS_ACCEPTED = 0,
    PERLWYNOS_UNREADABLE = 11,        /* a token cannot be read */
    PERLWYNOS_GROUP_ON_CARBONYL = 12, /* a group with a position at C1 of an acyl chain */
    PERLWYNOS_PIN_TOO_FAR = 13,       /* double bonds without a position before a first pin too far */
    PERLWYNOS_TAIL_TOO_SHORT = 14,    /* too few carbons for the double bonds without a position */
    PERLWYNOS_NO_SITE = 15,           /* a group without a position that has no carbon to sit on */
    PERLWYNOS_UNKNOWN_CLASS = 20,     /* the class code is none of the eight */
    PERLWYNOS_WRONG_COUNT = 21,       /* the class takes another number of tokens */
    PERLWYNOS_WRONG_KIND = 22,        /* a chain of the wrong kind for its place */
    PERLWYNOS_WRONG_TAIL = 23,        /* a tail outside the grammar, or where the class has none */
    PERLWYNOS_OVER_LIMIT = 31,        /* a token over the limits */
    PERLWYNOS_OFF_CHAIN = 32,         /* a feature off the drawn chain */
    PERLWYNOS_CLASH = 33,             /* two features that clash */
    PERLWYNOS_SHORT_SLICE = 41        /* `line` or `index` has too little room */
};

/* Draws one request.
 *
 * class_code  FA, GL1, GL2, GL3, GP, CL, SB or SA
 * swap        not 0: the chains may be exchanged, and the line says so
 * tail        the head group's text, for the classes that have one; else empty
 * count       how many of sn1 to sn4 are tokens, from 1 to 4; the others are
 *             not looked at
 * sn1 .. sn4  the chain names, as `18:1(9Z)`
 * line        room for the line; accepted, its first report[PERLWYNOS_LENGTH]
 *             bytes are the line (no zero byte is added)
 * index       room for the atom numbers of the chain carbons: accepted, the
 *             lists of the chains stand in it end to end, by rising sn, each
 *             as long as its pair in the report says
 * report      room for 21 numbers, all of which are written
 *
 * Returns report[PERLWYNOS_NUMBER]. Every request has an answer, whatever its
 * bytes are. A request that is refused leaves `line` and `index` as they were,
 * and one that is accepted leaves the rest of both as it was.
 *
 * Texts are bytes with a length, and need no zero byte. The pointer of a text or
 * room of length 0 is never followed: it may be NULL. Any other pointer must
 * lead to as many elements as its length says, `line`, `index` and `report` to
 * memory that may be written and that overlaps nothing else that is passed.
 */
uint32_t perlwynos_draw(const uint8_t *class_code, size_t class_len, uint8_t swap,
                        const uint8_t *tail, size_t tail_len, size_t count,
                        const uint8_t *sn1, size_t sn1_len, const uint8_t *sn2, size_t sn2_len,
                        const uint8_t *sn3, size_t sn3_len, const uint8_t *sn4, size_t sn4_len,
                        uint8_t *line, size_t line_len, uint16_t *index, size_t index_len,
                        uint32_t *report);

#ifdef __cplusplus
}
#endif

#endif
