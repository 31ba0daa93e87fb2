/* Heatherplane: a star file, for C and C++ programs.
 *
 * A star file maps star numbers to positions. The caller lends all of its memory and passes it, with the file's parameters and
 * growth record, to each call; the library keeps nothing between calls and has no heap. Most programs use the handles further down
 * (struct heatherplane_file and struct heatherplane_view) and the calls on them, whose names end in _in and _view.
 *
 * A file of M pages with b places each has four buffers, and the calls that place stars need a pool besides:
 *
 *     separators      M bytes
 *     numbers         M * b star numbers, 0 marking an empty place
 *     words           M * b position words: ra * 2^32 + (dec + 324000000), 0 in an empty place
 *     owners          M * b owners: 0 for the institute, 1 to 255 for observers, 0 in an empty place
 *     pool_numbers    M * b numbers, with any contents
 *     pool_words      M * b words, with any contents
 *     pool_owners     M * b owners, with any contents
 *
 * Place i of page p is item p * b + i. The largest file, M = 1024 and b = 32, has 427 kB and a pool of as much.
 *
 * Each buffer is passed as a pointer to its first item and its length in items. The pointer is aligned for its type, that many
 * items can be read there and, where it is no pointer to const, written. No two buffers of a call overlap. With length 0 the
 * pointer may be null. Within that, no contents, length or value leads to undefined behaviour, and every call returns. What is
 * refused is listed at each call, in the order in which it is tested: of several reasons the first is told.
 *
 * Afterwards: refused, a call leaves file and growth record as they were. Where it takes a pool, the pool is untouched with
 * BAD_PARAMETERS, BAD_LENGTH, BAD_NUMBER and BAD_POSITION and else holds zeros.
 *
 * Threads: a call touches what it is lent and nothing else, so calls on files that share no buffer may run at once. On one file
 * look_up, due, check, open_growth, step_growth, write_table and carry only read and may run at once, each with a pool, a second set and
 * an output of its own, while no call that writes the file runs. Each call's comment says which it is. There are no locks in the library.
 *
 * Buffers, parameters and growth record belong together: keep them together between runs, as an image does. Others that are valid by
 * themselves, but not this file's own, are accepted, and then a star that is held may be answered as not found (docs/DAMAGE.md). */
#ifndef HEATHERPLANE_H
#define HEATHERPLANE_H

#include <stdbool.h>
#include <stddef.h>
#include <stdint.h>
#include <string.h>

#ifdef __cplusplus
extern "C" {
#endif

/* The header's version; heatherplane_version() answers the library's. Programs need a library of the same major number, and of the
 * same minor number while that is 0. */
#define HEATHERPLANE_VERSION_MAJOR 0
#define HEATHERPLANE_VERSION_MINOR 9
#define HEATHERPLANE_VERSION_PATCH 0
#define HEATHERPLANE_VERSION (HEATHERPLANE_VERSION_MAJOR * 10000 + HEATHERPLANE_VERSION_MINOR * 100 + HEATHERPLANE_VERSION_PATCH)

/* A reply that nobody looks at hides a refusal. */
#if defined(__GNUC__)
#define HEATHERPLANE_NODISCARD __attribute__((warn_unused_result))
#elif (defined(__cplusplus) && __cplusplus >= 201703L) || (defined(__STDC_VERSION__) && __STDC_VERSION__ >= 202311L)
#define HEATHERPLANE_NODISCARD [[nodiscard]]
#else
#define HEATHERPLANE_NODISCARD
#endif

/* Why a call was refused. */
enum heatherplane_refusal {
    HEATHERPLANE_ACCEPTED = 0,
    HEATHERPLANE_BAD_PARAMETERS = 1, /* a parameter, the multiplier among them, or the growth record */
    HEATHERPLANE_BAD_LENGTH = 2,     /* the length of a buffer */
    HEATHERPLANE_BAD_NUMBER = 3,     /* the star number: 1 to 2147483646 */
    HEATHERPLANE_BAD_POSITION = 4,   /* ra: 0 to 1295999999, dec: -324000000 to 324000000, in milliarcseconds */
    HEATHERPLANE_DAMAGED = 5,        /* the page that the reply names is not sound, or no page is named (page M) */
    HEATHERPLANE_HELD = 6,           /* the star is in the file already, with another position */
    HEATHERPLANE_NOT_HELD = 7,       /* the star is not in the file */
    HEATHERPLANE_FULL = 8,           /* a star would be carried past the last page, or no further page can be addressed */
    HEATHERPLANE_UNGROWN = 9,        /* no growth is left to take back */
    HEATHERPLANE_BAD_HEADER = 10,    /* a FITS table's header or length */
    HEATHERPLANE_BAD_ROWS = 11,      /* a row of a FITS table, or its padding */
    HEATHERPLANE_SHORT_OUTPUT = 12,  /* the lent output is shorter than the table */
    HEATHERPLANE_NOT_OWNER = 13,     /* the caller is neither the star's owner nor the institute */
    HEATHERPLANE_TRAY_FULL = 14,     /* 256 reports are waiting */
    HEATHERPLANE_BAD_CONTENTS = 15,  /* pages that cannot be mended: a star with two positions, or an invalid item */
    HEATHERPLANE_OUT_OF_TURN = 16,   /* a growth is open, and the call writes the file; or none is open, and the call is a step */
    HEATHERPLANE_BAD_KIND = 256      /* a replay has a kind of call that is none */
};

/* The refusal's name, for messages. */
static inline const char *heatherplane_refusal_name(uint32_t refusal)
{
    static const char *const names[] = {
        "accepted", "bad parameters", "bad length", "bad number", "bad position", "damaged", "held", "not held", "full",
        "ungrown", "bad header", "bad rows", "short output", "not owner", "tray full", "bad contents", "out of turn"};
    if (refusal == HEATHERPLANE_BAD_KIND)
        return "bad kind";
    return refusal < sizeof names / sizeof *names ? names[refusal] : "unknown";
}

/* The multiplier of Park and Miller's number generator, from which homes and signatures are made. A file is made under one of them
 * and stays under it: called with the other, its pages are DAMAGED, or stars that it holds are not found. Files made before there
 * was a choice have that of 1988. Any other number is refused with BAD_PARAMETERS, also the 0 of a field that was not set. */
enum heatherplane_multiplier {
    HEATHERPLANE_MULTIPLIER_1988 = 16807,
    HEATHERPLANE_MULTIPLIER_1993 = 48271 /* recommended since */
};

struct heatherplane_parameters {
    uint32_t places;     /* b, places of a page: 1 to 32 */
    uint32_t groups;     /* N, first groups: 1 to 256 */
    uint32_t width;      /* n0, first pages of a group: 1 to 4 */
    uint32_t step;       /* s, step of a sweep: 1 to groups */
    uint32_t bits;       /* k, bits of a separator: 1 to 8 */
    uint32_t load;       /* A, load in per cent above which growth is due: 1 to 99 */
    uint32_t pages;      /* M: width * groups to 1024 */
    uint32_t multiplier; /* an enum heatherplane_multiplier */
};

/* How many pages are addressed: with n = width + expansions % width and G = groups * 2^(expansions / width), n * G + expanded of
 * them, at most pages; expanded is below G. Pages above hold overflow only. A new file has all four 0.
 *
 * An empty file may begin with any valid state. A host that does not want to grow its file page by page asks heatherplane_state_for for a
 * state for the stars expected: with few pages addressed a file is FULL at a third of its places, and entries near that take long. */
struct heatherplane_growth {
    uint32_t expansions; /* e, partial expansions finished */
    uint32_t expanded;   /* x, groups expanded in the present one */
    uint32_t open;       /* whether a growth is open: 1, or 0 if none is; any other number is BAD_PARAMETERS */
    uint32_t steps;      /* how many of its steps are done: below pages, and 0 if none is open */
};

/* What a call answers. A value that a call does not name is 0 or false.
 *
 * place is where the number was sought: on the page that the separators named before the call changed anything, the first place
 * that is empty or holds a number not below it, or b if there is none. The lower numbers of that page stand before the place; at
 * the place stands the number itself, if it is held, or else the next higher one, if there is any. look_up, enter, cascade, change and
 * remove tell it once they came to this search, refused afterwards or not; it is 0 with BAD_PARAMETERS, BAD_LENGTH, OUT_OF_TURN,
 * BAD_NUMBER, BAD_POSITION and where the named page itself is DAMAGED.
 *
 * page and place may be of different things. After an accepted entry page is where the star now stands, and place is where it was
 * sought, not where it ends: with one place a page (b=1 N=1 n0=1 s=1 k=8 A=50 M=2) and star 32 held, entering star 170 answers
 * page 0, place 1; it was sought behind 32, and now stands in place 0. A DAMAGED page met after the search is told with that place.
 *
 * growth is the record after the call: for make, grow, shrink, open_growth and step_growth the new one if the call is accepted, and in
 * every other case the one that was passed (one whose open is neither 0 nor 1 comes back as one that no call accepts). */
struct heatherplane_reply {
    uint32_t refusal; /* an enum heatherplane_refusal */
    uint32_t page;    /* 0 where the call was refused, except with HEATHERPLANE_DAMAGED */
    uint32_t place;   /* 0 to b */
    uint32_t ra;
    int32_t dec;
    bool found;
    bool due;
    uint32_t stars;
    struct heatherplane_growth growth;
};

/* The calls on numbers and buffers. All lengths are in items: pages for separators, pages * places for every other buffer. */

/* Makes the lent buffers an empty file: separators 2^bits - 1, all else 0, with growth state (0, 0) and none open.
 *
 * Buffers: the file's four, whatever they hold.
 * Refused: BAD_PARAMETERS, BAD_LENGTH.
 * Accepted: growth is the new file's record. A growth that was open is given up.
 * Threads: writes the file. */
HEATHERPLANE_NODISCARD struct heatherplane_reply heatherplane_make(
    uint32_t places, uint32_t groups, uint32_t width, uint32_t step, uint32_t bits, uint32_t load, uint32_t pages,
    uint32_t multiplier,
    uint8_t *separators, size_t separators_length,
    uint32_t *numbers, size_t numbers_length,
    uint64_t *words, size_t words_length,
    uint8_t *owners, size_t owners_length);

/* The growth state to begin with for a number of stars: the first in the order of growth at which growth is not due for them, or
 * else the last one that pages allows. An empty file may be used with it at once.
 *
 * Refused: BAD_PARAMETERS.
 * Accepted: growth is the state, with none open; due tells that even the last state has too few pages for the load; stars is the
 * number given.
 * Threads: touches no memory of the caller. */
HEATHERPLANE_NODISCARD struct heatherplane_reply heatherplane_state_for(
    uint32_t places, uint32_t groups, uint32_t width, uint32_t step, uint32_t bits, uint32_t load, uint32_t pages,
    uint32_t multiplier,
    uint32_t stars);

/* Looks a star up.
 *
 * Buffers: the file's four, which are only read.
 * Refused: BAD_PARAMETERS, BAD_LENGTH, BAD_NUMBER, DAMAGED (the page that the separators name); never OUT_OF_TURN.
 * Accepted: found tells whether the star is held, page is the page that the separators name for it, place its place there or
 * the one where it would stand, and ra and dec are its position if it is held.
 * Threads: reads the file, the separators and one page of it. */
HEATHERPLANE_NODISCARD struct heatherplane_reply heatherplane_look_up(
    uint32_t places, uint32_t groups, uint32_t width, uint32_t step, uint32_t bits, uint32_t load, uint32_t pages,
    uint32_t multiplier, uint32_t expansions, uint32_t expanded, uint32_t open, uint32_t steps,
    const uint8_t *separators, size_t separators_length,
    const uint32_t *numbers, size_t numbers_length,
    const uint64_t *words, size_t words_length,
    const uint8_t *owners, size_t owners_length,
    uint32_t number);

/* Enters a star that the file does not hold. A script may resend an entry after a lost reply: a star that the file holds with
 * exactly this position is accepted again, and the file stays as it was.
 *
 * Buffers: the file's four and the pool's three.
 * Refused: BAD_PARAMETERS, BAD_LENGTH, OUT_OF_TURN, BAD_NUMBER, BAD_POSITION, DAMAGED (the page that the separators name), HELD (with
 * another position), DAMAGED (the lowest unsound page of those that would be placed anew), FULL.
 * Accepted: page is the page where the star now stands, and a star that was not held is the caller's: 0 for the institute, 1 to 255
 * for an observer. Entered again, a star keeps its owner. The pages from its home to the end of its reach are placed anew.
 * Threads: writes the file. */
HEATHERPLANE_NODISCARD struct heatherplane_reply heatherplane_enter(
    uint32_t places, uint32_t groups, uint32_t width, uint32_t step, uint32_t bits, uint32_t load, uint32_t pages,
    uint32_t multiplier, uint32_t expansions, uint32_t expanded, uint32_t open, uint32_t steps,
    uint8_t *separators, size_t separators_length,
    uint32_t *numbers, size_t numbers_length,
    uint64_t *words, size_t words_length,
    uint8_t *owners, size_t owners_length,
    uint32_t *pool_numbers, size_t pool_numbers_length,
    uint64_t *pool_words, size_t pool_words_length,
    uint8_t *pool_owners, size_t pool_owners_length,
    uint8_t caller, uint32_t number, uint32_t ra, int32_t dec);

/* Enters a star by a cascade, for mounts that want the report's way: from the page that the separators name upward it holds one page
 * at a time and pushes the stars that a page no longer keeps along in the pool, until none is pushed on. A separator never rises.
 * On every clean file, such as these calls make of an empty one, its reply and the buffers afterwards are those of heatherplane_enter.
 * On other files they may not be, as it reads fewer pages.
 *
 * Buffers: the file's four and the pool's three.
 * Refused: BAD_PARAMETERS, BAD_LENGTH, OUT_OF_TURN, BAD_NUMBER, BAD_POSITION, DAMAGED (the page that the separators name), HELD (with
 * another position), DAMAGED (the first unsound page that a star is pushed to), FULL.
 * Accepted: page is the page where the star now stands, and a star that was not held is the caller's. The pages from the one that the
 * separators named to the last one that a star was pushed to are written. Entered again with exactly its position, a star keeps its
 * owner, and the file stays as it was.
 * Threads: writes the file. */
HEATHERPLANE_NODISCARD struct heatherplane_reply heatherplane_cascade(
    uint32_t places, uint32_t groups, uint32_t width, uint32_t step, uint32_t bits, uint32_t load, uint32_t pages,
    uint32_t multiplier, uint32_t expansions, uint32_t expanded, uint32_t open, uint32_t steps,
    uint8_t *separators, size_t separators_length,
    uint32_t *numbers, size_t numbers_length,
    uint64_t *words, size_t words_length,
    uint8_t *owners, size_t owners_length,
    uint32_t *pool_numbers, size_t pool_numbers_length,
    uint64_t *pool_words, size_t pool_words_length,
    uint8_t *pool_owners, size_t pool_owners_length,
    uint8_t caller, uint32_t number, uint32_t ra, int32_t dec);

/* Gives a star that the file holds another position. Its owner stays.
 *
 * Buffers: the file's four, of which one word is written.
 * Refused: BAD_PARAMETERS, BAD_LENGTH, OUT_OF_TURN, BAD_NUMBER, BAD_POSITION, DAMAGED (the page that the separators name), NOT_HELD,
 * NOT_OWNER (the caller is neither 0 nor the owner).
 * Accepted: page and place are where the star stands.
 * Threads: writes the file. */
HEATHERPLANE_NODISCARD struct heatherplane_reply heatherplane_change(
    uint32_t places, uint32_t groups, uint32_t width, uint32_t step, uint32_t bits, uint32_t load, uint32_t pages,
    uint32_t multiplier, uint32_t expansions, uint32_t expanded, uint32_t open, uint32_t steps,
    const uint8_t *separators, size_t separators_length,
    const uint32_t *numbers, size_t numbers_length,
    uint64_t *words, size_t words_length,
    const uint8_t *owners, size_t owners_length,
    uint8_t caller, uint32_t number, uint32_t ra, int32_t dec);

/* Removes a star that the file holds.
 *
 * Buffers: the file's four and the pool's three.
 * Refused: BAD_PARAMETERS, BAD_LENGTH, OUT_OF_TURN, BAD_NUMBER, DAMAGED (the page that the separators name), NOT_HELD, NOT_OWNER (the
 * caller is neither 0 nor the owner), DAMAGED (the lowest unsound page of those that would be placed anew).
 * Accepted: page is the page where the star stood. The pages from its home to the end of its reach are placed anew.
 * Threads: writes the file. */
HEATHERPLANE_NODISCARD struct heatherplane_reply heatherplane_remove(
    uint32_t places, uint32_t groups, uint32_t width, uint32_t step, uint32_t bits, uint32_t load, uint32_t pages,
    uint32_t multiplier, uint32_t expansions, uint32_t expanded, uint32_t open, uint32_t steps,
    uint8_t *separators, size_t separators_length,
    uint32_t *numbers, size_t numbers_length,
    uint64_t *words, size_t words_length,
    uint8_t *owners, size_t owners_length,
    uint32_t *pool_numbers, size_t pool_numbers_length,
    uint64_t *pool_words, size_t pool_words_length,
    uint8_t *pool_owners, size_t pool_owners_length,
    uint8_t caller, uint32_t number);

/* Tells whether growth is due: whether 100 * stars exceeds load * places * the pages in use, which run to the highest address or the
 * last page that holds a star, whichever is higher.
 *
 * Buffers: the file's four, which are only read.
 * Refused: BAD_PARAMETERS, BAD_LENGTH.
 * Accepted: due, and stars, the count of the numbers that are not 0.
 * Threads: reads the file. */
HEATHERPLANE_NODISCARD struct heatherplane_reply heatherplane_due(
    uint32_t places, uint32_t groups, uint32_t width, uint32_t step, uint32_t bits, uint32_t load, uint32_t pages,
    uint32_t multiplier, uint32_t expansions, uint32_t expanded, uint32_t open, uint32_t steps,
    const uint8_t *separators, size_t separators_length,
    const uint32_t *numbers, size_t numbers_length,
    const uint64_t *words, size_t words_length,
    const uint8_t *owners, size_t owners_length);

/* Addresses one page more and places all stars anew.
 *
 * Buffers: the file's four and the pool's three.
 * Refused: BAD_PARAMETERS, BAD_LENGTH, OUT_OF_TURN, FULL (every page is addressed), DAMAGED (the lowest unsound page), FULL (a star
 * would be carried past the last page).
 * Accepted: page is the new page, growth the new record.
 * Threads: writes the file. */
HEATHERPLANE_NODISCARD struct heatherplane_reply heatherplane_grow(
    uint32_t places, uint32_t groups, uint32_t width, uint32_t step, uint32_t bits, uint32_t load, uint32_t pages,
    uint32_t multiplier, uint32_t expansions, uint32_t expanded, uint32_t open, uint32_t steps,
    uint8_t *separators, size_t separators_length,
    uint32_t *numbers, size_t numbers_length,
    uint64_t *words, size_t words_length,
    uint8_t *owners, size_t owners_length,
    uint32_t *pool_numbers, size_t pool_numbers_length,
    uint64_t *pool_words, size_t pool_words_length,
    uint8_t *pool_owners, size_t pool_owners_length);

/* Takes the latest growth back and places all stars anew.
 *
 * Buffers: the file's four and the pool's three.
 * Refused: BAD_PARAMETERS, BAD_LENGTH, OUT_OF_TURN, UNGROWN (the state is (0, 0)), DAMAGED (the lowest unsound page), FULL (a star would
 * be carried past the last page).
 * Accepted: page is the page given back, growth the new record. The buffers keep their lengths.
 * Threads: writes the file. */
HEATHERPLANE_NODISCARD struct heatherplane_reply heatherplane_shrink(
    uint32_t places, uint32_t groups, uint32_t width, uint32_t step, uint32_t bits, uint32_t load, uint32_t pages,
    uint32_t multiplier, uint32_t expansions, uint32_t expanded, uint32_t open, uint32_t steps,
    uint8_t *separators, size_t separators_length,
    uint32_t *numbers, size_t numbers_length,
    uint64_t *words, size_t words_length,
    uint8_t *owners, size_t owners_length,
    uint32_t *pool_numbers, size_t pool_numbers_length,
    uint64_t *pool_words, size_t pool_words_length,
    uint8_t *pool_owners, size_t pool_owners_length);

/* Compares the whole file with what the rule gives its stars: advised after every start.
 *
 * Buffers: the file's four, which are only read, and the pool's three.
 * Refused: BAD_PARAMETERS, BAD_LENGTH, DAMAGED: page is the lowest unsound page, with place b; or, if all are sound, page and place are
 * the first that differ from the rule, place b being the separator.
 * Accepted: the file is clean.
 * Threads: reads the file, writes the pool. */
HEATHERPLANE_NODISCARD struct heatherplane_reply heatherplane_check(
    uint32_t places, uint32_t groups, uint32_t width, uint32_t step, uint32_t bits, uint32_t load, uint32_t pages,
    uint32_t multiplier, uint32_t expansions, uint32_t expanded, uint32_t open, uint32_t steps,
    const uint8_t *separators, size_t separators_length,
    const uint32_t *numbers, size_t numbers_length,
    const uint64_t *words, size_t words_length,
    const uint8_t *owners, size_t owners_length,
    uint32_t *pool_numbers, size_t pool_numbers_length,
    uint64_t *pool_words, size_t pool_words_length,
    uint8_t *pool_owners, size_t pool_owners_length);

/* Opens a growth into a second set of pages, as long as the file's, which becomes an empty file. Until its last step every call that
 * writes the file, but make, is OUT_OF_TURN; look-ups answer from the file, which no step touches. If the growth is given up, the
 * file is as it was: go on with its record from before.
 *
 * Buffers: the file's four, which are only read, the second set's four and the pool's three.
 * Refused: BAD_PARAMETERS, BAD_LENGTH, OUT_OF_TURN (one is open already), then as grow. A refusal leaves the second set as it was.
 * Accepted: growth is the record with the growth open and no step done.
 * Threads: reads the file, writes the second set and the pool. */
HEATHERPLANE_NODISCARD struct heatherplane_reply heatherplane_open_growth(
    uint32_t places, uint32_t groups, uint32_t width, uint32_t step, uint32_t bits, uint32_t load, uint32_t pages,
    uint32_t multiplier, uint32_t expansions, uint32_t expanded, uint32_t open, uint32_t steps,
    const uint8_t *separators, size_t separators_length,
    const uint32_t *numbers, size_t numbers_length,
    const uint64_t *words, size_t words_length,
    const uint8_t *owners, size_t owners_length,
    uint8_t *second_separators, size_t second_separators_length,
    uint32_t *second_numbers, size_t second_numbers_length,
    uint64_t *second_words, size_t second_words_length,
    uint8_t *second_owners, size_t second_owners_length,
    uint32_t *pool_numbers, size_t pool_numbers_length,
    uint64_t *pool_words, size_t pool_words_length,
    uint8_t *pool_owners, size_t pool_owners_length);

/* Does the next step of an open growth, of which there are as many as pages: it writes one page of the second set and its separator.
 *
 * Buffers: the file's four, which are only read, the second set's four as the step before left them, and the pool's three.
 * Refused: BAD_PARAMETERS, BAD_LENGTH, OUT_OF_TURN (none is open), then as grow. A refusal leaves the second set as it was.
 * Accepted: growth is the record with one step more; after the last step, whose page is the new page, it has none open, and from then
 * on the second set is the file: go on with its buffers in the file's place.
 * Threads: reads the file, writes the second set and the pool. */
HEATHERPLANE_NODISCARD struct heatherplane_reply heatherplane_step_growth(
    uint32_t places, uint32_t groups, uint32_t width, uint32_t step, uint32_t bits, uint32_t load, uint32_t pages,
    uint32_t multiplier, uint32_t expansions, uint32_t expanded, uint32_t open, uint32_t steps,
    const uint8_t *separators, size_t separators_length,
    const uint32_t *numbers, size_t numbers_length,
    const uint64_t *words, size_t words_length,
    const uint8_t *owners, size_t owners_length,
    uint8_t *second_separators, size_t second_separators_length,
    uint32_t *second_numbers, size_t second_numbers_length,
    uint64_t *second_words, size_t second_words_length,
    uint8_t *second_owners, size_t second_owners_length,
    uint32_t *pool_numbers, size_t pool_numbers_length,
    uint64_t *pool_words, size_t pool_words_length,
    uint8_t *pool_owners, size_t pool_owners_length);

/* The stopped forms: what a power loss leaves of a call. A page is stored whole, and the separators after the last page; after the
 * given number of stores the call ends. With a store for every changed page, or more, it is the whole call. For tests of a mount and
 * of its mending.
 *
 * Buffers, refused: as enter, change and remove. The reply is that of the whole call, whatever was stored.
 * Afterwards: an entry stores the highest changed page first, a removal the lowest; a change is one store. heatherplane_mend makes
 * the file whole again.
 * Threads: writes the file. */
HEATHERPLANE_NODISCARD struct heatherplane_reply heatherplane_enter_stopped(
    uint32_t places, uint32_t groups, uint32_t width, uint32_t step, uint32_t bits, uint32_t load, uint32_t pages,
    uint32_t multiplier, uint32_t expansions, uint32_t expanded, uint32_t open, uint32_t steps,
    uint8_t *separators, size_t separators_length,
    uint32_t *numbers, size_t numbers_length,
    uint64_t *words, size_t words_length,
    uint8_t *owners, size_t owners_length,
    uint32_t *pool_numbers, size_t pool_numbers_length,
    uint64_t *pool_words, size_t pool_words_length,
    uint8_t *pool_owners, size_t pool_owners_length,
    uint8_t caller, uint32_t number, uint32_t ra, int32_t dec, uint32_t stores);

/* Threads: writes the file, one word of it. */
HEATHERPLANE_NODISCARD struct heatherplane_reply heatherplane_change_stopped(
    uint32_t places, uint32_t groups, uint32_t width, uint32_t step, uint32_t bits, uint32_t load, uint32_t pages,
    uint32_t multiplier, uint32_t expansions, uint32_t expanded, uint32_t open, uint32_t steps,
    const uint8_t *separators, size_t separators_length,
    const uint32_t *numbers, size_t numbers_length,
    uint64_t *words, size_t words_length,
    const uint8_t *owners, size_t owners_length,
    uint8_t caller, uint32_t number, uint32_t ra, int32_t dec, uint32_t stores);

/* Threads: writes the file. */
HEATHERPLANE_NODISCARD struct heatherplane_reply heatherplane_remove_stopped(
    uint32_t places, uint32_t groups, uint32_t width, uint32_t step, uint32_t bits, uint32_t load, uint32_t pages,
    uint32_t multiplier, uint32_t expansions, uint32_t expanded, uint32_t open, uint32_t steps,
    uint8_t *separators, size_t separators_length,
    uint32_t *numbers, size_t numbers_length,
    uint64_t *words, size_t words_length,
    uint8_t *owners, size_t owners_length,
    uint32_t *pool_numbers, size_t pool_numbers_length,
    uint64_t *pool_words, size_t pool_words_length,
    uint8_t *pool_owners, size_t pool_owners_length,
    uint8_t caller, uint32_t number, uint32_t stores);

/* Mends a file whose call was cut short: places the stars that its pages hold anew. No separator is read, and a star that stands on
 * two pages with one position and owner is one star.
 *
 * Buffers: the file's four and the pool's three.
 * Refused: BAD_PARAMETERS, BAD_LENGTH, OUT_OF_TURN, BAD_CONTENTS (a star with two positions or owners, or an invalid item), FULL.
 * Accepted: the file is clean; page is 0.
 * Threads: writes the file. */
HEATHERPLANE_NODISCARD struct heatherplane_reply heatherplane_mend(
    uint32_t places, uint32_t groups, uint32_t width, uint32_t step, uint32_t bits, uint32_t load, uint32_t pages,
    uint32_t multiplier, uint32_t expansions, uint32_t expanded, uint32_t open, uint32_t steps,
    uint8_t *separators, size_t separators_length,
    uint32_t *numbers, size_t numbers_length,
    uint64_t *words, size_t words_length,
    uint8_t *owners, size_t owners_length,
    uint32_t *pool_numbers, size_t pool_numbers_length,
    uint64_t *pool_words, size_t pool_words_length,
    uint8_t *pool_owners, size_t pool_owners_length);

/* Writes the file's stars as a FITS table, in rising number. Owners are not written.
 *
 * Buffers: the file's four, which are only read, and out, of any number of bytes.
 * Refused: BAD_PARAMETERS, BAD_LENGTH, DAMAGED (the lowest unsound page), SHORT_OUTPUT; never OUT_OF_TURN. A refusal leaves out.
 * Accepted: stars is the table's length in bytes: 5760 and 12 for each star, these rounded up to a multiple of 2880. Bytes of out
 * past it are left.
 * Threads: reads the file, writes out. */
HEATHERPLANE_NODISCARD struct heatherplane_reply heatherplane_write_table(
    uint32_t places, uint32_t groups, uint32_t width, uint32_t step, uint32_t bits, uint32_t load, uint32_t pages,
    uint32_t multiplier, uint32_t expansions, uint32_t expanded, uint32_t open, uint32_t steps,
    const uint8_t *separators, size_t separators_length,
    const uint32_t *numbers, size_t numbers_length,
    const uint64_t *words, size_t words_length,
    const uint8_t *owners, size_t owners_length,
    uint8_t *out, size_t out_length);

/* Replaces the file by the stars of a FITS table, all of them the institute's. What the file held is not read.
 *
 * Buffers: the file's four, the pool's three, and given, the table's bytes, which are only read.
 * Refused: BAD_PARAMETERS, BAD_LENGTH, OUT_OF_TURN, BAD_HEADER (header and length are none that write_table makes), BAD_ROWS (a row out
 * of order or range, or padding that is not 0), FULL.
 * Accepted: the file is clean; page is 0.
 * Threads: writes the file. */
HEATHERPLANE_NODISCARD struct heatherplane_reply heatherplane_read_table(
    uint32_t places, uint32_t groups, uint32_t width, uint32_t step, uint32_t bits, uint32_t load, uint32_t pages,
    uint32_t multiplier, uint32_t expansions, uint32_t expanded, uint32_t open, uint32_t steps,
    uint8_t *separators, size_t separators_length,
    uint32_t *numbers, size_t numbers_length,
    uint64_t *words, size_t words_length,
    uint8_t *owners, size_t owners_length,
    uint32_t *pool_numbers, size_t pool_numbers_length,
    uint64_t *pool_words, size_t pool_words_length,
    uint8_t *pool_owners, size_t pool_owners_length,
    const uint8_t *given, size_t given_length);

/* Carries a file to other parameters, with the other multiplier, in a second set of buffers. The file is only read, also while a
 * growth of it is open.
 *
 * Buffers: the file's four, which are only read; the second set's four and the pool's three, in the lengths of the new parameters.
 * Refused: BAD_PARAMETERS (of either file, or the same multiplier in both), BAD_LENGTH, OUT_OF_TURN (a growth is open in the new
 * record), DAMAGED (the file's lowest unsound page), FULL. A refusal leaves the second set.
 * Accepted: the second set is a clean file of the same stars and owners; growth is its record, the one that was passed; page is 0.
 * Threads: reads the file, writes the second set. */
HEATHERPLANE_NODISCARD struct heatherplane_reply heatherplane_carry(
    uint32_t places, uint32_t groups, uint32_t width, uint32_t step, uint32_t bits, uint32_t load, uint32_t pages,
    uint32_t multiplier, uint32_t expansions, uint32_t expanded, uint32_t open, uint32_t steps,
    const uint8_t *separators, size_t separators_length,
    const uint32_t *numbers, size_t numbers_length,
    const uint64_t *words, size_t words_length,
    const uint8_t *owners, size_t owners_length,
    uint32_t new_places, uint32_t new_groups, uint32_t new_width, uint32_t new_step, uint32_t new_bits, uint32_t new_load,
    uint32_t new_pages, uint32_t new_multiplier, uint32_t new_expansions, uint32_t new_expanded, uint32_t new_open,
    uint32_t new_steps,
    uint8_t *second_separators, size_t second_separators_length,
    uint32_t *second_numbers, size_t second_numbers_length,
    uint64_t *second_words, size_t second_words_length,
    uint8_t *second_owners, size_t second_owners_length,
    uint32_t *pool_numbers, size_t pool_numbers_length,
    uint64_t *pool_words, size_t pool_words_length,
    uint8_t *pool_owners, size_t pool_owners_length);

/* Marks the pages that a growth of a clean file may have altered, for a backup: 1 for such a page, 0 for one that is as it was.
 * expansions and expanded are the growth state before the growth; the separators are those before it and after it.
 *
 * Buffers: the separators before and after, and the marks, each of pages bytes.
 * Refused (the answer): BAD_PARAMETERS, BAD_LENGTH, FULL (from that state no page is left to grow into). A refusal leaves the marks.
 * Threads: reads the separators, writes the marks. */
HEATHERPLANE_NODISCARD uint32_t heatherplane_mark_changed(
    uint32_t places, uint32_t groups, uint32_t width, uint32_t step, uint32_t bits, uint32_t load, uint32_t pages,
    uint32_t multiplier, uint32_t expansions, uint32_t expanded,
    const uint8_t *old_separators, size_t old_separators_length,
    const uint8_t *new_separators, size_t new_separators_length,
    uint8_t *marks, size_t marks_length);

/* The kinds of a replay's calls. */
enum heatherplane_kind {
    HEATHERPLANE_LOOK_UP = 0,
    HEATHERPLANE_ENTER = 1,
    HEATHERPLANE_CHANGE = 2,
    HEATHERPLANE_REMOVE = 3,
    HEATHERPLANE_GROW = 4,
    HEATHERPLANE_DUE = 5,
    HEATHERPLANE_CHECK = 6,
    HEATHERPLANE_SHRINK = 7,
    HEATHERPLANE_CASCADE = 8
};

/* Makes many calls, one after the other, on a file with no growth open: expansions and expanded are its growth state. Each call has a kind
 * and a caller, a number and a position, of which it takes what it needs, and is refused or accepted as by itself; a refused one does not
 * end the replay.
 *
 * Buffers: the file's four and the pool's three, whose lengths each call tests for itself; kinds, callers, stars, ras and decs, of one item
 * for each call; and answers, of eight: refusal, page, place, found (0 or 1), ra, dec + 2^31, due (0 or 1), stars.
 * Refused: BAD_LENGTH (of the last six buffers), BAD_KIND. A refusal leaves all as it was.
 * Accepted: growth is the record after the last call.
 * Threads: writes the file and the answers. */
HEATHERPLANE_NODISCARD struct heatherplane_reply heatherplane_replay(
    uint32_t places, uint32_t groups, uint32_t width, uint32_t step, uint32_t bits, uint32_t load, uint32_t pages,
    uint32_t multiplier, uint32_t expansions, uint32_t expanded,
    uint8_t *separators, size_t separators_length,
    uint32_t *numbers, size_t numbers_length,
    uint64_t *words, size_t words_length,
    uint8_t *owners, size_t owners_length,
    uint32_t *pool_numbers, size_t pool_numbers_length,
    uint64_t *pool_words, size_t pool_words_length,
    uint8_t *pool_owners, size_t pool_owners_length,
    const uint8_t *kinds, size_t kinds_length,
    const uint8_t *callers, size_t callers_length,
    const uint32_t *stars, size_t stars_length,
    const uint32_t *ras, size_t ras_length,
    const int32_t *decs, size_t decs_length,
    uint32_t *answers, size_t answers_length);

/* A star report, for surveys that collect first and file afterwards. */
struct heatherplane_report {
    uint32_t number;
    uint32_t ra;
    int32_t dec;
    uint8_t owner;   /* for whom it is filed: 0 for the institute, 1 to 255 for observers */
    uint8_t removed; /* 0: a position; any other number: a removal, whose position is not read and is stored as 0, 0 */
};

/* A tray is a list of 256 reports, of which the first count wait, and beside it a filter of 32 words, all zeros at first. Its calls keep
 * it under the file's multiplier; with the other one, or after any other change of list, count or filter, waiting reports may be missed. */
#define HEATHERPLANE_TRAY_REPORTS 256
#define HEATHERPLANE_TRAY_WORDS 32

/* What adding a report answers. */
struct heatherplane_added {
    uint32_t refusal; /* an enum heatherplane_refusal */
    uint32_t count;   /* after the call */
};

/* What a filing answers. */
struct heatherplane_filed {
    uint32_t refusal; /* an enum heatherplane_refusal: the call's, or that of the report at which it stopped */
    uint32_t page;    /* of that report, as are page and place of a reply */
    uint32_t place;
    uint32_t filed;   /* how many reports were filed */
    uint32_t count;   /* how many wait after the call */
};

/* How many bits of a filter are set. */
struct heatherplane_bits {
    uint32_t refusal; /* an enum heatherplane_refusal */
    uint32_t bits;    /* 0 to 2048 */
};

/* The tray's calls take parameters, growth record and report as values. */

/* Adds a report behind the others that wait. No file is lent, and a growth may be open.
 *
 * Buffers: the tray's list and its filter.
 * Refused: BAD_PARAMETERS, BAD_LENGTH (the list's, the filter's, or a count above 256), BAD_NUMBER, BAD_POSITION (not of a removal),
 * TRAY_FULL; refused, list and filter stay as they were.
 * Accepted: count is one more.
 * Threads: writes the tray. */
HEATHERPLANE_NODISCARD struct heatherplane_added heatherplane_add_report(
    struct heatherplane_parameters parameters, struct heatherplane_growth growth,
    struct heatherplane_report *reports, size_t reports_length, uint32_t count,
    uint64_t *filter, size_t filter_length,
    struct heatherplane_report report);

/* Looks a star up in filter, tray and file: the latest report on it answers, or else the file.
 *
 * Buffers: the file's four, the tray's list and its filter, which are only read.
 * Refused: BAD_PARAMETERS, BAD_LENGTH (also of the list or the filter, or a count above 256), BAD_NUMBER; then, if no report answers,
 * DAMAGED, as heatherplane_look_up. Never OUT_OF_TURN.
 * Accepted: a report that answers has page M (pages) and place 0; found is false if it is a removal. Else as heatherplane_look_up.
 * Threads: reads the file and the tray. */
HEATHERPLANE_NODISCARD struct heatherplane_reply heatherplane_look_up_with_tray(
    struct heatherplane_parameters parameters, struct heatherplane_growth growth,
    const uint8_t *separators, size_t separators_length,
    const uint32_t *numbers, size_t numbers_length,
    const uint64_t *words, size_t words_length,
    const uint8_t *owners, size_t owners_length,
    const struct heatherplane_report *reports, size_t reports_length, uint32_t count,
    const uint64_t *filter, size_t filter_length,
    uint32_t number);

/* Files the reports that wait, in order, each for its own owner: a star that the file holds is changed or removed, another is entered.
 * A removal of a star not held does nothing and counts as filed. It stops at the first refusal.
 *
 * Buffers: the file's four, the pool's three, the tray's list and its filter.
 * Refused: BAD_PARAMETERS, BAD_LENGTH, OUT_OF_TURN: filed is 0, and file and tray stay as they were. Any other refusal is that of the
 * report at which it stopped, with its page and place, as its own call would have answered.
 * Afterwards: filed reports are in the file and have left the tray; the others have closed up, zeros stand behind them, count is their
 * number, and the filter is theirs. A report that is refused again and again (NOT_OWNER, FULL) holds up those behind it.
 * Threads: writes the file and the tray. */
HEATHERPLANE_NODISCARD struct heatherplane_filed heatherplane_file_reports(
    struct heatherplane_parameters parameters, struct heatherplane_growth growth,
    uint8_t *separators, size_t separators_length,
    uint32_t *numbers, size_t numbers_length,
    uint64_t *words, size_t words_length,
    uint8_t *owners, size_t owners_length,
    uint32_t *pool_numbers, size_t pool_numbers_length,
    uint64_t *pool_words, size_t pool_words_length,
    uint8_t *pool_owners, size_t pool_owners_length,
    struct heatherplane_report *reports, size_t reports_length, uint32_t count,
    uint64_t *filter, size_t filter_length);

/* How many of the filter's 2,048 bits are set.
 *
 * Refused: BAD_LENGTH.
 * Threads: reads the filter. */
HEATHERPLANE_NODISCARD struct heatherplane_bits heatherplane_filter_bits(const uint64_t *filter, size_t filter_length);

/* The library's version, as HEATHERPLANE_VERSION is the header's.
 * Threads: touches no memory of the caller. */
HEATHERPLANE_NODISCARD uint32_t heatherplane_version(void);

/* A file as one value, for writing: its parameters, its growth record and the buffers lent to it. A value of all zeros is refused by
 * every call with BAD_PARAMETERS. */
struct heatherplane_file {
    struct heatherplane_parameters parameters;
    struct heatherplane_growth growth;
    uint8_t *separators;
    size_t separators_length;
    uint32_t *numbers;
    size_t numbers_length;
    uint64_t *words;
    size_t words_length;
    uint8_t *owners;
    size_t owners_length;
    uint32_t *pool_numbers;
    size_t pool_numbers_length;
    uint64_t *pool_words;
    size_t pool_words_length;
    uint8_t *pool_owners;
    size_t pool_owners_length;
};

/* The same for reading: a file in read-only memory, or mapped so. */
struct heatherplane_view {
    struct heatherplane_parameters parameters;
    struct heatherplane_growth growth;
    const uint8_t *separators;
    size_t separators_length;
    const uint32_t *numbers;
    size_t numbers_length;
    const uint64_t *words;
    size_t words_length;
    const uint8_t *owners;
    size_t owners_length;
};

/* The items of the numbers, words and owners of a file, and of a pool; separators are pages of them. Bytes: 4, 8 and 1 an item. */
static inline size_t heatherplane_items(const struct heatherplane_parameters *parameters)
{
    return (size_t)parameters->pages * parameters->places;
}

/* A file with the lengths that its parameters ask for; that of a null pointer is 0, which the calls refuse with BAD_LENGTH. */
static inline struct heatherplane_file heatherplane_file_of(
    struct heatherplane_parameters parameters, struct heatherplane_growth growth,
    uint8_t *separators, uint32_t *numbers, uint64_t *words, uint8_t *owners, uint32_t *pool_numbers, uint64_t *pool_words,
    uint8_t *pool_owners)
{
    const size_t items = heatherplane_items(&parameters);
    struct heatherplane_file file;
    file.parameters = parameters;
    file.growth = growth;
    file.separators = separators;
    file.separators_length = separators ? parameters.pages : 0;
    file.numbers = numbers;
    file.numbers_length = numbers ? items : 0;
    file.words = words;
    file.words_length = words ? items : 0;
    file.owners = owners;
    file.owners_length = owners ? items : 0;
    file.pool_numbers = pool_numbers;
    file.pool_numbers_length = pool_numbers ? items : 0;
    file.pool_words = pool_words;
    file.pool_words_length = pool_words ? items : 0;
    file.pool_owners = pool_owners;
    file.pool_owners_length = pool_owners ? items : 0;
    return file;
}

static inline struct heatherplane_view heatherplane_view_of(
    struct heatherplane_parameters parameters, struct heatherplane_growth growth,
    const uint8_t *separators, const uint32_t *numbers, const uint64_t *words, const uint8_t *owners)
{
    const size_t items = heatherplane_items(&parameters);
    struct heatherplane_view view;
    view.parameters = parameters;
    view.growth = growth;
    view.separators = separators;
    view.separators_length = separators ? parameters.pages : 0;
    view.numbers = numbers;
    view.numbers_length = numbers ? items : 0;
    view.words = words;
    view.words_length = words ? items : 0;
    view.owners = owners;
    view.owners_length = owners ? items : 0;
    return view;
}

/* A file for reading. It reads the buffers of the file, and its record as it is now. */
static inline struct heatherplane_view heatherplane_view_in(const struct heatherplane_file *file)
{
    struct heatherplane_view view;
    view.parameters = file->parameters;
    view.growth = file->growth;
    view.separators = file->separators;
    view.separators_length = file->separators_length;
    view.numbers = file->numbers;
    view.numbers_length = file->numbers_length;
    view.words = file->words;
    view.words_length = file->words_length;
    view.owners = file->owners;
    view.owners_length = file->owners_length;
    return view;
}

/* The calls on these values. Those that change the growth record store the new one in the file, if they are accepted. */

HEATHERPLANE_NODISCARD static inline struct heatherplane_reply heatherplane_make_in(struct heatherplane_file *file)
{
    const struct heatherplane_parameters *p = &file->parameters;
    const struct heatherplane_reply reply = heatherplane_make(
        p->places, p->groups, p->width, p->step, p->bits, p->load, p->pages, p->multiplier,
        file->separators, file->separators_length, file->numbers, file->numbers_length,
        file->words, file->words_length, file->owners, file->owners_length);
    if (!reply.refusal)
        file->growth = reply.growth;
    return reply;
}

/* An empty file with a growth state for so many stars. */
HEATHERPLANE_NODISCARD static inline struct heatherplane_reply heatherplane_make_for(struct heatherplane_file *file, uint32_t stars)
{
    const struct heatherplane_parameters *p = &file->parameters;
    struct heatherplane_reply reply = heatherplane_make_in(file);
    if (!reply.refusal) {
        reply = heatherplane_state_for(
            p->places, p->groups, p->width, p->step, p->bits, p->load, p->pages, p->multiplier, stars);
        file->growth = reply.growth;
    }
    return reply;
}

HEATHERPLANE_NODISCARD static inline struct heatherplane_reply heatherplane_look_up_view(
    const struct heatherplane_view *view, uint32_t number)
{
    const struct heatherplane_parameters *p = &view->parameters;
    return heatherplane_look_up(
        p->places, p->groups, p->width, p->step, p->bits, p->load, p->pages, p->multiplier,
        view->growth.expansions, view->growth.expanded, view->growth.open, view->growth.steps,
        view->separators, view->separators_length, view->numbers, view->numbers_length,
        view->words, view->words_length, view->owners, view->owners_length,
        number);
}

HEATHERPLANE_NODISCARD static inline struct heatherplane_reply heatherplane_look_up_in(
    const struct heatherplane_file *file, uint32_t number)
{
    const struct heatherplane_parameters *p = &file->parameters;
    return heatherplane_look_up(
        p->places, p->groups, p->width, p->step, p->bits, p->load, p->pages, p->multiplier,
        file->growth.expansions, file->growth.expanded, file->growth.open, file->growth.steps,
        file->separators, file->separators_length, file->numbers, file->numbers_length,
        file->words, file->words_length, file->owners, file->owners_length,
        number);
}

HEATHERPLANE_NODISCARD static inline struct heatherplane_reply heatherplane_enter_in(
    const struct heatherplane_file *file, uint8_t caller, uint32_t number, uint32_t ra, int32_t dec)
{
    const struct heatherplane_parameters *p = &file->parameters;
    return heatherplane_enter(
        p->places, p->groups, p->width, p->step, p->bits, p->load, p->pages, p->multiplier,
        file->growth.expansions, file->growth.expanded, file->growth.open, file->growth.steps,
        file->separators, file->separators_length, file->numbers, file->numbers_length,
        file->words, file->words_length, file->owners, file->owners_length,
        file->pool_numbers, file->pool_numbers_length, file->pool_words, file->pool_words_length,
        file->pool_owners, file->pool_owners_length,
        caller, number, ra, dec);
}

HEATHERPLANE_NODISCARD static inline struct heatherplane_reply heatherplane_cascade_in(
    const struct heatherplane_file *file, uint8_t caller, uint32_t number, uint32_t ra, int32_t dec)
{
    const struct heatherplane_parameters *p = &file->parameters;
    return heatherplane_cascade(
        p->places, p->groups, p->width, p->step, p->bits, p->load, p->pages, p->multiplier,
        file->growth.expansions, file->growth.expanded, file->growth.open, file->growth.steps,
        file->separators, file->separators_length, file->numbers, file->numbers_length,
        file->words, file->words_length, file->owners, file->owners_length,
        file->pool_numbers, file->pool_numbers_length, file->pool_words, file->pool_words_length,
        file->pool_owners, file->pool_owners_length,
        caller, number, ra, dec);
}

HEATHERPLANE_NODISCARD static inline struct heatherplane_reply heatherplane_change_in(
    const struct heatherplane_file *file, uint8_t caller, uint32_t number, uint32_t ra, int32_t dec)
{
    const struct heatherplane_parameters *p = &file->parameters;
    return heatherplane_change(
        p->places, p->groups, p->width, p->step, p->bits, p->load, p->pages, p->multiplier,
        file->growth.expansions, file->growth.expanded, file->growth.open, file->growth.steps,
        file->separators, file->separators_length, file->numbers, file->numbers_length,
        file->words, file->words_length, file->owners, file->owners_length,
        caller, number, ra, dec);
}

HEATHERPLANE_NODISCARD static inline struct heatherplane_reply heatherplane_remove_in(
    const struct heatherplane_file *file, uint8_t caller, uint32_t number)
{
    const struct heatherplane_parameters *p = &file->parameters;
    return heatherplane_remove(
        p->places, p->groups, p->width, p->step, p->bits, p->load, p->pages, p->multiplier,
        file->growth.expansions, file->growth.expanded, file->growth.open, file->growth.steps,
        file->separators, file->separators_length, file->numbers, file->numbers_length,
        file->words, file->words_length, file->owners, file->owners_length,
        file->pool_numbers, file->pool_numbers_length, file->pool_words, file->pool_words_length,
        file->pool_owners, file->pool_owners_length,
        caller, number);
}

HEATHERPLANE_NODISCARD static inline struct heatherplane_reply heatherplane_due_view(const struct heatherplane_view *view)
{
    const struct heatherplane_parameters *p = &view->parameters;
    return heatherplane_due(
        p->places, p->groups, p->width, p->step, p->bits, p->load, p->pages, p->multiplier,
        view->growth.expansions, view->growth.expanded, view->growth.open, view->growth.steps,
        view->separators, view->separators_length, view->numbers, view->numbers_length,
        view->words, view->words_length, view->owners, view->owners_length);
}

HEATHERPLANE_NODISCARD static inline struct heatherplane_reply heatherplane_due_in(const struct heatherplane_file *file)
{
    const struct heatherplane_parameters *p = &file->parameters;
    return heatherplane_due(
        p->places, p->groups, p->width, p->step, p->bits, p->load, p->pages, p->multiplier,
        file->growth.expansions, file->growth.expanded, file->growth.open, file->growth.steps,
        file->separators, file->separators_length, file->numbers, file->numbers_length,
        file->words, file->words_length, file->owners, file->owners_length);
}

HEATHERPLANE_NODISCARD static inline struct heatherplane_reply heatherplane_grow_in(struct heatherplane_file *file)
{
    const struct heatherplane_parameters *p = &file->parameters;
    const struct heatherplane_reply reply = heatherplane_grow(
        p->places, p->groups, p->width, p->step, p->bits, p->load, p->pages, p->multiplier,
        file->growth.expansions, file->growth.expanded, file->growth.open, file->growth.steps,
        file->separators, file->separators_length, file->numbers, file->numbers_length,
        file->words, file->words_length, file->owners, file->owners_length,
        file->pool_numbers, file->pool_numbers_length, file->pool_words, file->pool_words_length,
        file->pool_owners, file->pool_owners_length);
    if (!reply.refusal)
        file->growth = reply.growth;
    return reply;
}

HEATHERPLANE_NODISCARD static inline struct heatherplane_reply heatherplane_shrink_in(struct heatherplane_file *file)
{
    const struct heatherplane_parameters *p = &file->parameters;
    const struct heatherplane_reply reply = heatherplane_shrink(
        p->places, p->groups, p->width, p->step, p->bits, p->load, p->pages, p->multiplier,
        file->growth.expansions, file->growth.expanded, file->growth.open, file->growth.steps,
        file->separators, file->separators_length, file->numbers, file->numbers_length,
        file->words, file->words_length, file->owners, file->owners_length,
        file->pool_numbers, file->pool_numbers_length, file->pool_words, file->pool_words_length,
        file->pool_owners, file->pool_owners_length);
    if (!reply.refusal)
        file->growth = reply.growth;
    return reply;
}

HEATHERPLANE_NODISCARD static inline struct heatherplane_reply heatherplane_check_in(const struct heatherplane_file *file)
{
    const struct heatherplane_parameters *p = &file->parameters;
    return heatherplane_check(
        p->places, p->groups, p->width, p->step, p->bits, p->load, p->pages, p->multiplier,
        file->growth.expansions, file->growth.expanded, file->growth.open, file->growth.steps,
        file->separators, file->separators_length, file->numbers, file->numbers_length,
        file->words, file->words_length, file->owners, file->owners_length,
        file->pool_numbers, file->pool_numbers_length, file->pool_words, file->pool_words_length,
        file->pool_owners, file->pool_owners_length);
}

/* The check of a file for reading, with a pool of the same size. */
HEATHERPLANE_NODISCARD static inline struct heatherplane_reply heatherplane_check_view(
    const struct heatherplane_view *view, uint32_t *pool_numbers, uint64_t *pool_words, uint8_t *pool_owners)
{
    const struct heatherplane_parameters *p = &view->parameters;
    const size_t items = heatherplane_items(p);
    return heatherplane_check(
        p->places, p->groups, p->width, p->step, p->bits, p->load, p->pages, p->multiplier,
        view->growth.expansions, view->growth.expanded, view->growth.open, view->growth.steps,
        view->separators, view->separators_length, view->numbers, view->numbers_length,
        view->words, view->words_length, view->owners, view->owners_length,
        pool_numbers, pool_numbers ? items : 0, pool_words, pool_words ? items : 0, pool_owners, pool_owners ? items : 0);
}

/* A growth in steps. second lends its four buffers, and nothing else of it is used. After the last step file and second have exchanged
 * their buffers, so that file is the grown one. */
HEATHERPLANE_NODISCARD static inline struct heatherplane_reply heatherplane_open_growth_in(
    struct heatherplane_file *file, const struct heatherplane_file *second)
{
    const struct heatherplane_parameters *p = &file->parameters;
    const struct heatherplane_reply reply = heatherplane_open_growth(
        p->places, p->groups, p->width, p->step, p->bits, p->load, p->pages, p->multiplier,
        file->growth.expansions, file->growth.expanded, file->growth.open, file->growth.steps,
        file->separators, file->separators_length, file->numbers, file->numbers_length,
        file->words, file->words_length, file->owners, file->owners_length,
        second->separators, second->separators_length, second->numbers, second->numbers_length,
        second->words, second->words_length, second->owners, second->owners_length,
        file->pool_numbers, file->pool_numbers_length, file->pool_words, file->pool_words_length,
        file->pool_owners, file->pool_owners_length);
    if (!reply.refusal)
        file->growth = reply.growth;
    return reply;
}

HEATHERPLANE_NODISCARD static inline struct heatherplane_reply heatherplane_step_growth_in(
    struct heatherplane_file *file, struct heatherplane_file *second)
{
    const struct heatherplane_parameters *p = &file->parameters;
    const struct heatherplane_reply reply = heatherplane_step_growth(
        p->places, p->groups, p->width, p->step, p->bits, p->load, p->pages, p->multiplier,
        file->growth.expansions, file->growth.expanded, file->growth.open, file->growth.steps,
        file->separators, file->separators_length, file->numbers, file->numbers_length,
        file->words, file->words_length, file->owners, file->owners_length,
        second->separators, second->separators_length, second->numbers, second->numbers_length,
        second->words, second->words_length, second->owners, second->owners_length,
        file->pool_numbers, file->pool_numbers_length, file->pool_words, file->pool_words_length,
        file->pool_owners, file->pool_owners_length);
    if (!reply.refusal)
        file->growth = reply.growth;
    if (!reply.refusal && !reply.growth.open) {
        const struct heatherplane_file old = *file;
        file->separators = second->separators;
        file->numbers = second->numbers;
        file->words = second->words;
        file->owners = second->owners;
        second->separators = old.separators;
        second->numbers = old.numbers;
        second->words = old.words;
        second->owners = old.owners;
    }
    return reply;
}

HEATHERPLANE_NODISCARD static inline struct heatherplane_reply heatherplane_enter_stopped_in(
    const struct heatherplane_file *file, uint8_t caller, uint32_t number, uint32_t ra, int32_t dec, uint32_t stores)
{
    const struct heatherplane_parameters *p = &file->parameters;
    return heatherplane_enter_stopped(
        p->places, p->groups, p->width, p->step, p->bits, p->load, p->pages, p->multiplier,
        file->growth.expansions, file->growth.expanded, file->growth.open, file->growth.steps,
        file->separators, file->separators_length, file->numbers, file->numbers_length,
        file->words, file->words_length, file->owners, file->owners_length,
        file->pool_numbers, file->pool_numbers_length, file->pool_words, file->pool_words_length,
        file->pool_owners, file->pool_owners_length,
        caller, number, ra, dec, stores);
}

HEATHERPLANE_NODISCARD static inline struct heatherplane_reply heatherplane_change_stopped_in(
    const struct heatherplane_file *file, uint8_t caller, uint32_t number, uint32_t ra, int32_t dec, uint32_t stores)
{
    const struct heatherplane_parameters *p = &file->parameters;
    return heatherplane_change_stopped(
        p->places, p->groups, p->width, p->step, p->bits, p->load, p->pages, p->multiplier,
        file->growth.expansions, file->growth.expanded, file->growth.open, file->growth.steps,
        file->separators, file->separators_length, file->numbers, file->numbers_length,
        file->words, file->words_length, file->owners, file->owners_length,
        caller, number, ra, dec, stores);
}

HEATHERPLANE_NODISCARD static inline struct heatherplane_reply heatherplane_remove_stopped_in(
    const struct heatherplane_file *file, uint8_t caller, uint32_t number, uint32_t stores)
{
    const struct heatherplane_parameters *p = &file->parameters;
    return heatherplane_remove_stopped(
        p->places, p->groups, p->width, p->step, p->bits, p->load, p->pages, p->multiplier,
        file->growth.expansions, file->growth.expanded, file->growth.open, file->growth.steps,
        file->separators, file->separators_length, file->numbers, file->numbers_length,
        file->words, file->words_length, file->owners, file->owners_length,
        file->pool_numbers, file->pool_numbers_length, file->pool_words, file->pool_words_length,
        file->pool_owners, file->pool_owners_length,
        caller, number, stores);
}

HEATHERPLANE_NODISCARD static inline struct heatherplane_reply heatherplane_mend_in(
    const struct heatherplane_file *file)
{
    const struct heatherplane_parameters *p = &file->parameters;
    return heatherplane_mend(
        p->places, p->groups, p->width, p->step, p->bits, p->load, p->pages, p->multiplier,
        file->growth.expansions, file->growth.expanded, file->growth.open, file->growth.steps,
        file->separators, file->separators_length, file->numbers, file->numbers_length,
        file->words, file->words_length, file->owners, file->owners_length,
        file->pool_numbers, file->pool_numbers_length, file->pool_words, file->pool_words_length,
        file->pool_owners, file->pool_owners_length);
}

HEATHERPLANE_NODISCARD static inline struct heatherplane_reply heatherplane_write_table_view(
    const struct heatherplane_view *view, uint8_t *out, size_t out_length)
{
    const struct heatherplane_parameters *p = &view->parameters;
    return heatherplane_write_table(
        p->places, p->groups, p->width, p->step, p->bits, p->load, p->pages, p->multiplier,
        view->growth.expansions, view->growth.expanded, view->growth.open, view->growth.steps,
        view->separators, view->separators_length, view->numbers, view->numbers_length,
        view->words, view->words_length, view->owners, view->owners_length,
        out, out_length);
}

HEATHERPLANE_NODISCARD static inline struct heatherplane_reply heatherplane_read_table_in(
    const struct heatherplane_file *file, const uint8_t *given, size_t given_length)
{
    const struct heatherplane_parameters *p = &file->parameters;
    return heatherplane_read_table(
        p->places, p->groups, p->width, p->step, p->bits, p->load, p->pages, p->multiplier,
        file->growth.expansions, file->growth.expanded, file->growth.open, file->growth.steps,
        file->separators, file->separators_length, file->numbers, file->numbers_length,
        file->words, file->words_length, file->owners, file->owners_length,
        file->pool_numbers, file->pool_numbers_length, file->pool_words, file->pool_words_length,
        file->pool_owners, file->pool_owners_length,
        given, given_length);
}

/* Carries the viewed file into another, whose parameters, growth record, buffers and pool are set. */
HEATHERPLANE_NODISCARD static inline struct heatherplane_reply heatherplane_carry_in(
    const struct heatherplane_view *view, const struct heatherplane_file *file)
{
    const struct heatherplane_parameters *p = &view->parameters, *q = &file->parameters;
    return heatherplane_carry(
        p->places, p->groups, p->width, p->step, p->bits, p->load, p->pages, p->multiplier,
        view->growth.expansions, view->growth.expanded, view->growth.open, view->growth.steps,
        view->separators, view->separators_length, view->numbers, view->numbers_length,
        view->words, view->words_length, view->owners, view->owners_length,
        q->places, q->groups, q->width, q->step, q->bits, q->load, q->pages, q->multiplier,
        file->growth.expansions, file->growth.expanded, file->growth.open, file->growth.steps,
        file->separators, file->separators_length, file->numbers, file->numbers_length,
        file->words, file->words_length, file->owners, file->owners_length,
        file->pool_numbers, file->pool_numbers_length, file->pool_words, file->pool_words_length,
        file->pool_owners, file->pool_owners_length);
}

/* Many calls at once: count of them, with as many kinds, callers, numbers and positions, and eight answers each. OUT_OF_TURN while a growth
 * is open, BAD_PARAMETERS with a record that is none. */
HEATHERPLANE_NODISCARD static inline struct heatherplane_reply heatherplane_replay_in(
    struct heatherplane_file *file, size_t count, const uint8_t *kinds, const uint8_t *callers, const uint32_t *stars, const uint32_t *ras,
    const int32_t *decs, uint32_t *answers)
{
    const struct heatherplane_parameters *p = &file->parameters;
    struct heatherplane_reply reply;
    if (file->growth.open || file->growth.steps) {
        memset(&reply, 0, sizeof reply);
        reply.refusal = file->growth.open == 1 ? HEATHERPLANE_OUT_OF_TURN : HEATHERPLANE_BAD_PARAMETERS;
        reply.growth = file->growth;
        return reply;
    }
    reply = heatherplane_replay(
        p->places, p->groups, p->width, p->step, p->bits, p->load, p->pages, p->multiplier,
        file->growth.expansions, file->growth.expanded,
        file->separators, file->separators_length, file->numbers, file->numbers_length,
        file->words, file->words_length, file->owners, file->owners_length,
        file->pool_numbers, file->pool_numbers_length, file->pool_words, file->pool_words_length,
        file->pool_owners, file->pool_owners_length,
        kinds, kinds ? count : 0, callers, callers ? count : 0, stars, stars ? count : 0, ras, ras ? count : 0, decs, decs ? count : 0,
        answers, answers ? 8 * count : 0);
    if (!reply.refusal)
        file->growth = reply.growth;
    return reply;
}

/* A tray as one value: its list, count and filter. All zeros but the pointers, it is empty. */
struct heatherplane_tray {
    struct heatherplane_report *reports;
    size_t reports_length;
    uint64_t *filter;
    size_t filter_length;
    uint32_t count;
};

/* An empty tray in a list of 256 reports and a filter of 32 words, which are set to zeros; the length of a null pointer is 0, which the
 * calls refuse with BAD_LENGTH. */
static inline struct heatherplane_tray heatherplane_tray_of(struct heatherplane_report *reports, uint64_t *filter)
{
    struct heatherplane_tray tray;
    memset(&tray, 0, sizeof tray);
    if (reports)
        memset(reports, 0, HEATHERPLANE_TRAY_REPORTS * sizeof *reports);
    if (filter)
        memset(filter, 0, HEATHERPLANE_TRAY_WORDS * sizeof *filter);
    tray.reports = reports;
    tray.reports_length = reports ? HEATHERPLANE_TRAY_REPORTS : 0;
    tray.filter = filter;
    tray.filter_length = filter ? HEATHERPLANE_TRAY_WORDS : 0;
    return tray;
}

/* Adds a report on a star of this file, and stores the new count in the tray. */
HEATHERPLANE_NODISCARD static inline struct heatherplane_added heatherplane_add_report_in(
    const struct heatherplane_view *view, struct heatherplane_tray *tray, struct heatherplane_report report)
{
    const struct heatherplane_added added = heatherplane_add_report(
        view->parameters, view->growth, tray->reports, tray->reports_length, tray->count, tray->filter, tray->filter_length, report);
    tray->count = added.count;
    return added;
}

HEATHERPLANE_NODISCARD static inline struct heatherplane_reply heatherplane_look_up_with_tray_view(
    const struct heatherplane_view *view, const struct heatherplane_tray *tray, uint32_t number)
{
    return heatherplane_look_up_with_tray(
        view->parameters, view->growth,
        view->separators, view->separators_length, view->numbers, view->numbers_length,
        view->words, view->words_length, view->owners, view->owners_length,
        tray->reports, tray->reports_length, tray->count, tray->filter, tray->filter_length,
        number);
}

/* Files the tray's reports, and stores the new count in it. */
HEATHERPLANE_NODISCARD static inline struct heatherplane_filed heatherplane_file_reports_in(
    const struct heatherplane_file *file, struct heatherplane_tray *tray)
{
    const struct heatherplane_filed filed = heatherplane_file_reports(
        file->parameters, file->growth,
        file->separators, file->separators_length, file->numbers, file->numbers_length,
        file->words, file->words_length, file->owners, file->owners_length,
        file->pool_numbers, file->pool_numbers_length, file->pool_words, file->pool_words_length,
        file->pool_owners, file->pool_owners_length,
        tray->reports, tray->reports_length, tray->count, tray->filter, tray->filter_length);
    tray->count = filed.count;
    return filed;
}

HEATHERPLANE_NODISCARD static inline struct heatherplane_bits heatherplane_filter_bits_in(const struct heatherplane_tray *tray)
{
    return heatherplane_filter_bits(tray->filter, tray->filter_length);
}

/* Marks after a growth, from the record and the separators before it; old_separators and marks have as many bytes as pages. */
HEATHERPLANE_NODISCARD static inline uint32_t heatherplane_mark_changed_in(
    const struct heatherplane_file *file, const struct heatherplane_growth *before, const uint8_t *old_separators, uint8_t *marks)
{
    const struct heatherplane_parameters *p = &file->parameters;
    return heatherplane_mark_changed(
        p->places, p->groups, p->width, p->step, p->bits, p->load, p->pages, p->multiplier, before->expansions, before->expanded,
        old_separators, old_separators ? p->pages : 0, file->separators, file->separators_length, marks, marks ? p->pages : 0);
}

/* A position word and what it holds; of a word that is not valid ra_of and dec_of mean nothing. */

static inline uint64_t heatherplane_word_of(uint32_t ra, int32_t dec)
{
    return (uint64_t)ra << 32 | (uint32_t)((uint32_t)dec + 324000000u);
}

static inline bool heatherplane_word_valid(uint64_t word)
{
    return word >> 32 <= 1295999999u && (word & 0xFFFFFFFFu) <= 648000000u;
}

static inline uint32_t heatherplane_ra_of(uint64_t word)
{
    return (uint32_t)(word >> 32);
}

static inline int32_t heatherplane_dec_of(uint64_t word)
{
    return (int32_t)((uint32_t)word - 324000000u);
}

/* A star as it stands in a file. */
struct heatherplane_star {
    uint32_t number;
    uint32_t ra;
    int32_t dec;
    uint32_t page;
    uint32_t place;
    uint8_t owner;
};

/* The next star from an item on, in the order of the places, which is not that of the numbers; false if there is none. Begin with an
 * item of 0. It judges nothing: on a file that is not sound it tells what stands there.
 *
 *     struct heatherplane_star star;
 *     size_t item = 0;
 *     while (heatherplane_next_star(&view, &item, &star))
 *         .. */
static inline bool heatherplane_next_star(const struct heatherplane_view *view, size_t *item, struct heatherplane_star *star)
{
    const size_t places = view->parameters.places;
    while (places && *item < view->numbers_length && *item < view->words_length && *item < view->owners_length) {
        const size_t at = (*item)++;
        if (view->numbers[at]) {
            star->number = view->numbers[at];
            star->ra = heatherplane_ra_of(view->words[at]);
            star->dec = heatherplane_dec_of(view->words[at]);
            star->page = (uint32_t)(at / places);
            star->place = (uint32_t)(at % places);
            star->owner = view->owners[at];
            return true;
        }
    }
    return false;
}

/* A file as one image, on disk or in flash, that other programs can read too: docs/IMAGE.md has its layout. All of it is little-endian,
 * as the machines that this library is for, so that a handle points straight into a mapped image. An image begins at an address that
 * is a multiple of 8, as mapped files do. */

#define HEATHERPLANE_IMAGE_VERSION 1u
#define HEATHERPLANE_IMAGE_HEADER 80u

/* flags of an image */
#define HEATHERPLANE_IMAGE_PAGES_ONLY 1u /* it has no separators */
#define HEATHERPLANE_IMAGE_OPEN 2u       /* pages are being written: the checksum is of the header alone */

enum heatherplane_image_refusal {
    HEATHERPLANE_IMAGE_ACCEPTED = 0,
    HEATHERPLANE_IMAGE_BAD_LENGTH = 1,  /* shorter than a header, or not the length that its header asks for */
    HEATHERPLANE_IMAGE_BAD_MAGIC = 2,   /* not an image, or one that was changed as if it were text */
    HEATHERPLANE_IMAGE_BAD_VERSION = 3, /* an image of another version, or with flags that this one does not know */
    HEATHERPLANE_IMAGE_BAD_CRC = 4,     /* something of it was altered */
    HEATHERPLANE_IMAGE_UNALIGNED = 5,   /* its address is no multiple of 8 */
    HEATHERPLANE_IMAGE_TORN = 6         /* its pages were being written, or it has no separators: see heatherplane_image_mend */
};

static inline const char *heatherplane_image_refusal_name(uint32_t refusal)
{
    static const char *const names[] = {"accepted", "bad length", "bad magic", "bad version", "bad checksum", "unaligned", "torn"};
    return refusal < sizeof names / sizeof *names ? names[refusal] : "unknown";
}

/* The bytes of an image, 0 for parameters that no file has. */
static inline size_t heatherplane_image_length(const struct heatherplane_parameters *parameters, bool separators)
{
    if (parameters->pages < 1 || parameters->pages > 1024 || parameters->places < 1 || parameters->places > 32)
        return 0;
    return HEATHERPLANE_IMAGE_HEADER + 13 * heatherplane_items(parameters) + (separators ? parameters->pages : 0);
}

/* CRC-32C (Castagnoli) of some bytes, going on from the CRC of those before them, at first 0. */
static inline uint32_t heatherplane_crc32c(uint32_t crc, const void *bytes, size_t length)
{
    static const uint32_t table[16] = {
        0x00000000u, 0x105EC76Fu, 0x20BD8EDEu, 0x30E349B1u, 0x417B1DBCu, 0x5125DAD3u, 0x61C69362u, 0x7198540Du,
        0x82F63B78u, 0x92A8FC17u, 0xA24BB5A6u, 0xB21572C9u, 0xC38D26C4u, 0xD3D3E1ABu, 0xE330A81Au, 0xF36E6F75u};
    const unsigned char *next = (const unsigned char *)bytes;
    crc = ~crc;
    while (length--) {
        crc ^= *next++;
        crc = crc >> 4 ^ table[crc & 15];
        crc = crc >> 4 ^ table[crc & 15];
    }
    return ~crc;
}

/* An image's header, as it stands in memory. */
struct heatherplane_image_header {
    unsigned char magic[8];
    uint32_t version;
    uint32_t flags;
    struct heatherplane_parameters parameters;
    struct heatherplane_growth growth;
    uint64_t length;
    uint32_t zero;
    uint32_t crc;
};

/* The checksum that an image of this header has. */
static inline uint32_t heatherplane_image_crc(const struct heatherplane_image_header *header, const void *image)
{
    uint32_t crc = heatherplane_crc32c(0, header, HEATHERPLANE_IMAGE_HEADER - 4);
    if (!(header->flags & HEATHERPLANE_IMAGE_OPEN))
        crc = heatherplane_crc32c(
            crc, (const unsigned char *)image + HEATHERPLANE_IMAGE_HEADER, (size_t)header->length - HEATHERPLANE_IMAGE_HEADER);
    return crc;
}

/* Reads and tests an image's header, and the checksum. */
HEATHERPLANE_NODISCARD static inline uint32_t heatherplane_image_test(
    const void *image, size_t length, struct heatherplane_image_header *header)
{
    static const unsigned char magic[8] = {0x89, 'H', 'P', 'L', 0x0D, 0x0A, 0x1A, 0x0A};
    if (!image || length < HEATHERPLANE_IMAGE_HEADER)
        return HEATHERPLANE_IMAGE_BAD_LENGTH;
    memcpy(header, image, HEATHERPLANE_IMAGE_HEADER);
    if (memcmp(header->magic, magic, sizeof magic) != 0)
        return HEATHERPLANE_IMAGE_BAD_MAGIC;
    if (header->version != HEATHERPLANE_IMAGE_VERSION || header->flags > 3u || header->zero != 0)
        return HEATHERPLANE_IMAGE_BAD_VERSION;
    if (header->length != length
        || header->length != heatherplane_image_length(&header->parameters, !(header->flags & HEATHERPLANE_IMAGE_PAGES_ONLY)))
        return HEATHERPLANE_IMAGE_BAD_LENGTH;
    if (heatherplane_image_crc(header, image) != header->crc)
        return HEATHERPLANE_IMAGE_BAD_CRC;
    return HEATHERPLANE_IMAGE_ACCEPTED;
}

/* Points a file for reading into an image. Refused, the view is all zeros, so that every call on it is refused too. An image that is open
 * or without separators is TORN. */
HEATHERPLANE_NODISCARD static inline uint32_t heatherplane_image_view(
    const void *image, size_t length, struct heatherplane_view *view)
{
    struct heatherplane_image_header header;
    const unsigned char *base = (const unsigned char *)image;
    const uint32_t refusal = heatherplane_image_test(image, length, &header);
    memset(view, 0, sizeof *view);
    if (refusal)
        return refusal;
    if ((uintptr_t)image % 8 != 0)
        return HEATHERPLANE_IMAGE_UNALIGNED;
    if (header.flags != 0)
        return HEATHERPLANE_IMAGE_TORN;
    {
        const size_t items = heatherplane_items(&header.parameters);
        const void *const words = base + HEATHERPLANE_IMAGE_HEADER;
        const void *const numbers = base + HEATHERPLANE_IMAGE_HEADER + 8 * items;
        *view = heatherplane_view_of(
            header.parameters, header.growth, base + HEATHERPLANE_IMAGE_HEADER + 13 * items, (const uint32_t *)numbers,
            (const uint64_t *)words, base + HEATHERPLANE_IMAGE_HEADER + 12 * items);
    }
    return HEATHERPLANE_IMAGE_ACCEPTED;
}

/* Points a file for writing into an image, with a pool of the host's. separators, of as many bytes as pages, may be null; they serve
 * where the image has none.
 *
 * Refused, the file is all zeros, so that every call on it is refused too. TORN is the exception: the power was lost while the pages
 * were written, or the image has no separators, so the file is pointed at the pages, with the separators as they are, and has to be
 * mended before any other call, as heatherplane_image_mend does. */
HEATHERPLANE_NODISCARD static inline uint32_t heatherplane_image_file(
    void *image, size_t length, uint8_t *separators, uint32_t *pool_numbers, uint64_t *pool_words, uint8_t *pool_owners,
    struct heatherplane_file *file)
{
    struct heatherplane_image_header header;
    unsigned char *base = (unsigned char *)image;
    const uint32_t refusal = heatherplane_image_test(image, length, &header);
    memset(file, 0, sizeof *file);
    if (refusal)
        return refusal;
    if ((uintptr_t)image % 8 != 0)
        return HEATHERPLANE_IMAGE_UNALIGNED;
    {
        const size_t items = heatherplane_items(&header.parameters);
        void *const words = base + HEATHERPLANE_IMAGE_HEADER;
        void *const numbers = base + HEATHERPLANE_IMAGE_HEADER + 8 * items;
        uint8_t *const own = base + HEATHERPLANE_IMAGE_HEADER + 13 * items;
        *file = heatherplane_file_of(
            header.parameters, header.growth, header.flags & HEATHERPLANE_IMAGE_PAGES_ONLY ? separators : own, (uint32_t *)numbers,
            (uint64_t *)words, base + HEATHERPLANE_IMAGE_HEADER + 12 * items, pool_numbers, pool_words, pool_owners);
    }
    return header.flags ? HEATHERPLANE_IMAGE_TORN : HEATHERPLANE_IMAGE_ACCEPTED;
}

/* Points a file for writing into an image, as heatherplane_image_file does, and mends it if it is TORN: the first call of a host that
 * stores pages only, or may have lost its power. separators, of as many bytes as pages, are needed where the image has none.
 *
 * A growth that was open in a TORN image is given up, since its second set is not there. reply, which may be null, is the mending's, or
 * all zeros if none was needed; refused with it (BAD_CONTENTS, FULL, or BAD_LENGTH without separators or pool), the image stays TORN and
 * as it was, and the file is all zeros. An image that is accepted is only pointed at.
 *
 * A mending writes many pages: let image be memory of the program's own, read or mapped privately, and store the mended image under a new
 * name that then takes the old one's (docs/POWER.md). Seal or save it first. */
HEATHERPLANE_NODISCARD static inline uint32_t heatherplane_image_mend(
    void *image, size_t length, uint8_t *separators, uint32_t *pool_numbers, uint64_t *pool_words, uint8_t *pool_owners,
    struct heatherplane_file *file, struct heatherplane_reply *reply)
{
    const uint32_t refusal = heatherplane_image_file(image, length, separators, pool_numbers, pool_words, pool_owners, file);
    struct heatherplane_reply mended;
    memset(&mended, 0, sizeof mended);
    if (refusal == HEATHERPLANE_IMAGE_TORN) {
        file->growth.open = 0;
        file->growth.steps = 0;
        mended = heatherplane_mend_in(file);
        if (mended.refusal)
            memset(file, 0, sizeof *file);
    }
    if (reply)
        *reply = mended;
    return refusal == HEATHERPLANE_IMAGE_TORN && !mended.refusal ? (uint32_t)HEATHERPLANE_IMAGE_ACCEPTED : refusal;
}

/* Writes a header for these parameters and this record, with the checksum that its flags ask for. */
static inline void heatherplane_image_head(
    void *image, uint32_t flags, const struct heatherplane_parameters *parameters, const struct heatherplane_growth *growth)
{
    static const unsigned char magic[8] = {0x89, 'H', 'P', 'L', 0x0D, 0x0A, 0x1A, 0x0A};
    struct heatherplane_image_header header;
    memset(&header, 0, sizeof header);
    memcpy(header.magic, magic, sizeof magic);
    header.version = HEATHERPLANE_IMAGE_VERSION;
    header.flags = flags;
    header.parameters = *parameters;
    header.growth = *growth;
    header.length = heatherplane_image_length(parameters, !(flags & HEATHERPLANE_IMAGE_PAGES_ONLY));
    header.crc = heatherplane_image_crc(&header, image);
    memcpy(image, &header, HEATHERPLANE_IMAGE_HEADER);
}

/* Copies a file into an image of exactly the length that heatherplane_image_length tells, with or without its separators. BAD_LENGTH if
 * the image or the file's buffers have another. */
HEATHERPLANE_NODISCARD static inline uint32_t heatherplane_image_save(
    void *image, size_t length, const struct heatherplane_view *view, bool separators)
{
    unsigned char *base = (unsigned char *)image;
    const size_t items = heatherplane_items(&view->parameters);
    if (!image || length == 0 || length != heatherplane_image_length(&view->parameters, separators) || view->numbers_length != items
        || view->words_length != items || view->owners_length != items || (separators && view->separators_length != view->parameters.pages))
        return HEATHERPLANE_IMAGE_BAD_LENGTH;
    memcpy(base + HEATHERPLANE_IMAGE_HEADER, view->words, 8 * items);
    memcpy(base + HEATHERPLANE_IMAGE_HEADER + 8 * items, view->numbers, 4 * items);
    memcpy(base + HEATHERPLANE_IMAGE_HEADER + 12 * items, view->owners, items);
    if (separators)
        memcpy(base + HEATHERPLANE_IMAGE_HEADER + 13 * items, view->separators, view->parameters.pages);
    heatherplane_image_head(image, separators ? 0u : HEATHERPLANE_IMAGE_PAGES_ONLY, &view->parameters, &view->growth);
    return HEATHERPLANE_IMAGE_ACCEPTED;
}

/* For a host that writes an image in place: open it before the first call that writes, seal it after the last, with the file that points
 * into it. In between the checksum is of the header alone, and an image found so is TORN. Both write the file's record. BAD_LENGTH if the
 * file does not point into the image, as after the last step of a growth: save it then. */
HEATHERPLANE_NODISCARD static inline uint32_t heatherplane_image_mark(void *image, const struct heatherplane_file *file, bool open)
{
    const unsigned char *base = (const unsigned char *)image;
    const size_t items = heatherplane_items(&file->parameters);
    uint32_t flags = open ? HEATHERPLANE_IMAGE_OPEN : 0u;
    if (!image || (const unsigned char *)file->words != base + HEATHERPLANE_IMAGE_HEADER
        || heatherplane_image_length(&file->parameters, true) == 0)
        return HEATHERPLANE_IMAGE_BAD_LENGTH;
    if (file->separators != base + HEATHERPLANE_IMAGE_HEADER + 13 * items)
        flags |= HEATHERPLANE_IMAGE_PAGES_ONLY;
    heatherplane_image_head(image, flags, &file->parameters, &file->growth);
    return HEATHERPLANE_IMAGE_ACCEPTED;
}

HEATHERPLANE_NODISCARD static inline uint32_t heatherplane_image_open(void *image, const struct heatherplane_file *file)
{
    return heatherplane_image_mark(image, file, true);
}

HEATHERPLANE_NODISCARD static inline uint32_t heatherplane_image_seal(void *image, const struct heatherplane_file *file)
{
    return heatherplane_image_mark(image, file, false);
}

#ifdef __cplusplus
}
#endif

#endif
