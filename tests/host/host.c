/* host [STARS [IMAGE]]: a host's life with the library as it ships, on its largest file: fill with growths, check, change, shrink, grow in
 * steps with look-ups between, save, reload, damage, stop calls after every store and mend. Each group of tests prints a line; it ends with 'N passed, M failed'. With IMAGE it
 * leaves the saved image there. */
#include <inttypes.h>
#include <stdio.h>
#include <stdlib.h>

#include "heatherplane.h"

enum { PLACES = 32, PAGES = 1024, ITEMS = PLACES * PAGES, LENGTH = 80 + 13 * ITEMS + PAGES };

struct buffers {
    uint8_t separators[PAGES], owners[ITEMS];
    uint32_t numbers[ITEMS];
    uint64_t words[ITEMS];
};

static struct buffers first, other, copy;
static uint32_t pool_numbers[ITEMS];
static uint64_t pool_words[ITEMS];
static uint8_t pool_owners[ITEMS];
static _Alignas(8) unsigned char image[LENGTH + 8], pages_only[LENGTH];

static unsigned passed, failed, seen;

static void expect(int line, const char *what, bool holds)
{
    if (holds) {
        passed++;
    } else {
        failed++;
        printf("FAILED: line %d: %s\n", line, what);
    }
}
#define EXPECT(test) expect(__LINE__, #test, test)

static void group(const char *name)
{
    printf("%s: %u tests\n", name, passed + failed - seen);
    seen = passed + failed;
}

static struct heatherplane_parameters parameters_of(uint32_t groups)
{
    const struct heatherplane_parameters parameters = {PLACES, groups, 2, 1, 8, 80, PAGES, HEATHERPLANE_MULTIPLIER_1993};
    return parameters;
}

static const struct heatherplane_growth new_file = {0, 0, 0, 0};

static struct heatherplane_file file_in(struct buffers *b, uint32_t groups)
{
    return heatherplane_file_of(parameters_of(groups), new_file, b->separators, b->numbers, b->words, b->owners, pool_numbers,
                                pool_words, pool_owners);
}

/* star i of the test: its number, position and owner */
static uint32_t number_of(uint32_t i) { return 1 + i * 7919u; }
static uint32_t ra_of(uint32_t i) { return i * 64799u % 1296000000u; }
static int32_t dec_of(uint32_t i) { return (int32_t)(i * 30011u % 648000001u) - 324000000; }
static uint8_t owner_of(uint32_t i) { return (uint8_t)(i % 4); }

static bool holds(const struct heatherplane_file *file, uint32_t i)
{
    const struct heatherplane_reply reply = heatherplane_look_up_in(file, number_of(i));
    return !reply.refusal && reply.found && reply.ra == ra_of(i) && reply.dec == dec_of(i)
           && file->owners[reply.page * PLACES + reply.place] == owner_of(i);
}

static bool pool_is_zero(void)
{
    for (size_t item = 0; item < ITEMS; item++)
        if (pool_numbers[item] || pool_words[item] || pool_owners[item])
            return false;
    return true;
}

static bool same_record(struct heatherplane_growth a, struct heatherplane_growth b)
{
    return a.expansions == b.expansions && a.expanded == b.expanded && a.open == b.open && a.steps == b.steps;
}

static void refusal_names(void)
{
    static const struct {
        uint32_t refusal;
        const char *name;
    } names[] = {
        {HEATHERPLANE_ACCEPTED, "accepted"}, {HEATHERPLANE_BAD_PARAMETERS, "bad parameters"}, {HEATHERPLANE_BAD_LENGTH, "bad length"},
        {HEATHERPLANE_BAD_NUMBER, "bad number"}, {HEATHERPLANE_BAD_POSITION, "bad position"}, {HEATHERPLANE_DAMAGED, "damaged"},
        {HEATHERPLANE_HELD, "held"}, {HEATHERPLANE_NOT_HELD, "not held"}, {HEATHERPLANE_FULL, "full"},
        {HEATHERPLANE_UNGROWN, "ungrown"}, {HEATHERPLANE_BAD_HEADER, "bad header"}, {HEATHERPLANE_BAD_ROWS, "bad rows"},
        {HEATHERPLANE_SHORT_OUTPUT, "short output"}, {HEATHERPLANE_NOT_OWNER, "not owner"}, {HEATHERPLANE_TRAY_FULL, "tray full"},
        {HEATHERPLANE_BAD_CONTENTS, "bad contents"}, {HEATHERPLANE_OUT_OF_TURN, "out of turn"}, {HEATHERPLANE_BAD_KIND, "bad kind"}, {17, "unknown"}, {UINT32_MAX, "unknown"}};
    for (size_t i = 0; i < sizeof names / sizeof *names; i++) {
        EXPECT(i > 16 || names[i].refusal == i);
        EXPECT(strcmp(heatherplane_refusal_name(names[i].refusal), names[i].name) == 0);
    }
    EXPECT(strcmp(heatherplane_image_refusal_name(HEATHERPLANE_IMAGE_TORN), "torn") == 0);
    EXPECT(strcmp(heatherplane_image_refusal_name(7), "unknown") == 0);
}

/* A position word and what it holds, at the ends of the ranges. */
static void position_words(void)
{
    static const uint32_t ras[] = {0, 1, 648000000, 1295999999};
    static const int32_t decs[] = {-324000000, -1, 0, 1, 324000000};
    for (size_t i = 0; i < 4; i++)
        for (size_t j = 0; j < 5; j++) {
            const uint64_t word = heatherplane_word_of(ras[i], decs[j]);
            EXPECT(heatherplane_word_valid(word) && heatherplane_ra_of(word) == ras[i] && heatherplane_dec_of(word) == decs[j]);
        }
    EXPECT(heatherplane_word_of(0, -324000000) == 0 && heatherplane_word_of(1, 0) == ((uint64_t)1 << 32 | 324000000));
    EXPECT(!heatherplane_word_valid(UINT64_MAX) && !heatherplane_word_valid((uint64_t)1296000000 << 32));
    EXPECT(!heatherplane_word_valid(648000001) && heatherplane_word_valid(648000000));
    group("position words");
}

/* What a careless host passes first: nothing, null buffers, a wrong length, a record that is none. */
static void bad_handles(void)
{
    struct heatherplane_file nothing, null_buffers;
    struct heatherplane_file file = file_in(&first, 8);
    struct heatherplane_view view;
    memset(&nothing, 0, sizeof nothing);
    memset(&view, 0, sizeof view);
    null_buffers = heatherplane_file_of(parameters_of(8), new_file, NULL, NULL, NULL, NULL, NULL, NULL, NULL);
    for (uint32_t code = 1; code <= 2; code++) {
        struct heatherplane_file *bad = code == 1 ? &nothing : &null_buffers;
        EXPECT(heatherplane_make_in(bad).refusal == code);
        EXPECT(heatherplane_look_up_in(bad, 1).refusal == code);
        EXPECT(heatherplane_enter_in(bad, 0, 1, 0, 0).refusal == code);
        EXPECT(heatherplane_cascade_in(bad, 0, 1, 0, 0).refusal == code);
        EXPECT(heatherplane_change_in(bad, 0, 1, 0, 0).refusal == code);
        EXPECT(heatherplane_remove_in(bad, 0, 1).refusal == code);
        EXPECT(heatherplane_due_in(bad).refusal == code);
        EXPECT(heatherplane_grow_in(bad).refusal == code);
        EXPECT(heatherplane_shrink_in(bad).refusal == code);
        EXPECT(heatherplane_check_in(bad).refusal == code);
        EXPECT(heatherplane_open_growth_in(bad, &nothing).refusal == code);
        EXPECT(heatherplane_step_growth_in(bad, &nothing).refusal == code);
        EXPECT(heatherplane_enter_stopped_in(bad, 0, 1, 0, 0, 1).refusal == code);
        EXPECT(heatherplane_change_stopped_in(bad, 0, 1, 0, 0, 1).refusal == code);
        EXPECT(heatherplane_remove_stopped_in(bad, 0, 1, 1).refusal == code);
        EXPECT(heatherplane_mend_in(bad).refusal == code);
        EXPECT(heatherplane_read_table_in(bad, NULL, 0).refusal == code);
        EXPECT(heatherplane_mark_changed_in(bad, &new_file, NULL, NULL) == code);
        EXPECT(same_record(bad->growth, new_file));
    }
    EXPECT(heatherplane_look_up_view(&view, 1).refusal == HEATHERPLANE_BAD_PARAMETERS);
    EXPECT(heatherplane_due_view(&view).refusal == HEATHERPLANE_BAD_PARAMETERS);
    EXPECT(heatherplane_check_view(&view, NULL, NULL, NULL).refusal == HEATHERPLANE_BAD_PARAMETERS);
    EXPECT(heatherplane_write_table_view(&view, NULL, 0).refusal == HEATHERPLANE_BAD_PARAMETERS);
    EXPECT(heatherplane_carry_in(&view, &nothing).refusal == HEATHERPLANE_BAD_PARAMETERS);
    EXPECT(heatherplane_make_for(&nothing, 1).refusal == HEATHERPLANE_BAD_PARAMETERS);
    file.words_length--;
    EXPECT(heatherplane_make_in(&file).refusal == HEATHERPLANE_BAD_LENGTH);
    file.words_length++;
    file.growth.open = 2;
    EXPECT(heatherplane_look_up_in(&file, 1).refusal == HEATHERPLANE_BAD_PARAMETERS);
    EXPECT(heatherplane_version() == HEATHERPLANE_VERSION);
    refusal_names();
    group("bad handles");
}

/* Enters the stars, every third by a cascade, and grows whenever growth is due; asked at every sixteenth. */
static void fill(struct heatherplane_file *file, uint32_t stars)
{
    uint32_t growths = 0;
    EXPECT(heatherplane_make_in(file).refusal == 0);
    for (uint32_t i = 0; i < stars; i++) {
        const struct heatherplane_reply reply =
            i % 3 == 0 ? heatherplane_cascade_in(file, owner_of(i), number_of(i), ra_of(i), dec_of(i))
                       : heatherplane_enter_in(file, owner_of(i), number_of(i), ra_of(i), dec_of(i));
        EXPECT(reply.refusal == 0);
        while (i % 16 == 15 && heatherplane_due_in(file).due) {
            EXPECT(heatherplane_grow_in(file).refusal == 0);
            growths++;
        }
    }
    EXPECT(heatherplane_due_in(file).stars == stars);
    EXPECT(heatherplane_check_in(file).refusal == 0);
    EXPECT(growths > 0);
    printf("%" PRIu32 " stars, %" PRIu32 " growths to (%" PRIu32 ", %" PRIu32 ")\n", stars, growths, file->growth.expansions,
           file->growth.expanded);
    group("filling");
}

static void read_all(const struct heatherplane_file *file, uint32_t stars)
{
    const struct heatherplane_view view = heatherplane_view_in(file);
    struct heatherplane_star star;
    size_t item = 0, count = 0;
    for (uint32_t i = 0; i < stars; i++)
        EXPECT(holds(file, i));
    EXPECT(!heatherplane_look_up_view(&view, number_of(stars)).found);
    while (heatherplane_next_star(&view, &item, &star)) {
        const uint32_t i = (star.number - 1) / 7919u;
        EXPECT(number_of(i) == star.number && star.ra == ra_of(i) && star.dec == dec_of(i) && star.owner == owner_of(i));
        EXPECT(heatherplane_word_of(star.ra, star.dec) == view.words[star.page * PLACES + star.place]);
        EXPECT(heatherplane_word_valid(view.words[star.page * PLACES + star.place]));
        count++;
    }
    EXPECT(count == stars);
    group("look-ups and iteration");
}

static void change(const struct heatherplane_file *file)
{
    const uint32_t number = number_of(5); /* of owner 1 */
    EXPECT(heatherplane_enter_in(file, 1, number, ra_of(5), dec_of(5)).refusal == 0);
    EXPECT(heatherplane_enter_in(file, 1, number, 0, 0).refusal == HEATHERPLANE_HELD);
    EXPECT(heatherplane_change_in(file, 2, number, 1, -1).refusal == HEATHERPLANE_NOT_OWNER);
    EXPECT(heatherplane_change_in(file, 1, number, 1, -324000001).refusal == HEATHERPLANE_BAD_POSITION);
    EXPECT(heatherplane_change_in(file, 1, 0, 1, -1).refusal == HEATHERPLANE_BAD_NUMBER);
    EXPECT(heatherplane_change_in(file, 1, 2, 1, -1).refusal == HEATHERPLANE_NOT_HELD);
    EXPECT(heatherplane_change_in(file, 1, number, 1, -1).refusal == 0);
    EXPECT(heatherplane_look_up_in(file, number).ra == 1 && heatherplane_look_up_in(file, number).dec == -1);
    EXPECT(heatherplane_remove_in(file, 2, number).refusal == HEATHERPLANE_NOT_OWNER);
    EXPECT(heatherplane_change_in(file, 0, number, ra_of(5), dec_of(5)).refusal == 0);
    EXPECT(holds(file, 5));
    group("changing");
}

/* A growth and the marks of the pages that it may have altered: every other page is as it was. */
static void marks(struct heatherplane_file *file)
{
    static uint8_t marked[PAGES];
    const struct heatherplane_growth before = file->growth;
    uint32_t unmarked = 0;
    copy = first;
    EXPECT(heatherplane_grow_in(file).refusal == 0);
    EXPECT(heatherplane_mark_changed_in(file, &before, copy.separators, marked) == 0);
    for (size_t page = 0; page < PAGES; page++)
        if (!marked[page]) {
            unmarked++;
            EXPECT(memcmp(copy.numbers + page * PLACES, first.numbers + page * PLACES, 4 * PLACES) == 0);
            EXPECT(memcmp(copy.words + page * PLACES, first.words + page * PLACES, 8 * PLACES) == 0);
            EXPECT(memcmp(copy.owners + page * PLACES, first.owners + page * PLACES, PLACES) == 0);
            EXPECT(copy.separators[page] == first.separators[page]);
        }
    EXPECT(unmarked > 0);
    EXPECT(heatherplane_shrink_in(file).refusal == 0);
    EXPECT(same_record(file->growth, before));
    EXPECT(memcmp(&copy, &first, sizeof copy) == 0);
    group("marks, growth and shrinking");
}

/* Removes a part of the stars, gives pages back, and takes them again. */
static void shrink(struct heatherplane_file *file, uint32_t stars)
{
    struct heatherplane_growth before;
    for (uint32_t i = stars - stars / 8; i < stars; i++)
        EXPECT(heatherplane_remove_in(file, owner_of(i), number_of(i)).refusal == 0);
    for (int page = 0; page < 20; page++)
        EXPECT(heatherplane_shrink_in(file).refusal == 0);
    EXPECT(pool_is_zero());
    EXPECT(heatherplane_check_in(file).refusal == 0);
    before = file->growth;
    file->growth.open = 1;
    EXPECT(heatherplane_shrink_in(file).refusal == HEATHERPLANE_OUT_OF_TURN);
    file->growth = before;
    EXPECT(heatherplane_due_in(file).stars == stars - stars / 8);
    for (uint32_t i = stars - stars / 8; i < stars; i++)
        EXPECT(heatherplane_enter_in(file, owner_of(i), number_of(i), ra_of(i), dec_of(i)).refusal == 0);
    group("removing and shrinking");
}

/* A growth in steps, with look-ups between; the file's own pages stay as they are. */
static void steps(struct heatherplane_file *file, struct heatherplane_file *second, uint32_t stars)
{
    const struct heatherplane_growth before = file->growth;
    const uint8_t *const separators = file->separators;
    struct heatherplane_reply reply;
    EXPECT(heatherplane_step_growth_in(file, second).refusal == HEATHERPLANE_OUT_OF_TURN);
    EXPECT(heatherplane_open_growth_in(file, second).refusal == 0);
    EXPECT(file->growth.open == 1 && file->growth.steps == 0);
    EXPECT(heatherplane_open_growth_in(file, second).refusal == HEATHERPLANE_OUT_OF_TURN);
    copy = first;
    for (uint32_t step = 0; step < PAGES; step++) {
        reply = heatherplane_step_growth_in(file, second);
        EXPECT(reply.refusal == 0);
        if (step + 1 < PAGES) {
            EXPECT(file->separators == separators && file->growth.steps == step + 1);
            EXPECT(holds(file, step * 17 % stars));
            EXPECT(step % 64 != 0 || heatherplane_enter_in(file, 0, number_of(0), ra_of(0), dec_of(0)).refusal == HEATHERPLANE_OUT_OF_TURN);
        }
    }
    EXPECT(memcmp(&copy, &first, sizeof copy) == 0);
    EXPECT(file->separators == other.separators && second->separators == separators);
    EXPECT(file->growth.open == 0 && file->growth.steps == 0);
    EXPECT(heatherplane_check_in(file).refusal == 0);
    EXPECT(holds(file, stars - 1));
    /* the growth at once is the same */
    second->growth = before;
    EXPECT(heatherplane_grow_in(second).page == reply.page);
    EXPECT(same_record(second->growth, file->growth));
    EXPECT(memcmp(&first, &other, sizeof first) == 0);
    group("a growth in steps");
}

/* The state for a number of stars is the one that growing as they come leads to, and filling a file that begins with it is quick. */
static void states(uint32_t stars)
{
    struct heatherplane_file file = file_in(&copy, 8);
    struct heatherplane_reply reply;
    uint32_t addressed = 16;
    for (uint32_t n = 0; n < 2 * ITEMS; n += 509) {
        EXPECT(heatherplane_make_for(&file, n).refusal == 0);
        const uint32_t width = 2 + file.growth.expansions % 2, groups = 8u << file.growth.expansions / 2;
        addressed = width * groups + file.growth.expanded;
        EXPECT(addressed == PAGES || 100ull * n <= 80ull * PLACES * addressed);
        EXPECT(addressed == 16 || 100ull * n > 80ull * PLACES * (addressed - 1));
    }
    EXPECT(addressed == PAGES);
    EXPECT(heatherplane_make_for(&file, UINT32_MAX).due);
    reply = heatherplane_make_for(&file, stars / 4);
    EXPECT(reply.refusal == 0 && !reply.due && reply.stars == stars / 4);
    for (uint32_t i = 0; i < stars / 4; i++)
        EXPECT(heatherplane_enter_in(&file, owner_of(i), number_of(i), ra_of(i), dec_of(i)).refusal == 0);
    EXPECT(!heatherplane_due_in(&file).due);
    EXPECT(heatherplane_check_in(&file).refusal == 0);
    group("states for a number of stars");
}

/* An image that is altered anywhere is refused before any call. */
static void damaged_image(void)
{
    struct heatherplane_view view;
    EXPECT(heatherplane_image_view(image, 79, &view) == HEATHERPLANE_IMAGE_BAD_LENGTH);
    EXPECT(heatherplane_image_view(NULL, 0, &view) == HEATHERPLANE_IMAGE_BAD_LENGTH);
    EXPECT(heatherplane_image_view(image, LENGTH - 1, &view) == HEATHERPLANE_IMAGE_BAD_LENGTH);
    EXPECT(heatherplane_image_view(image, LENGTH + 1, &view) == HEATHERPLANE_IMAGE_BAD_LENGTH);
    for (size_t bit = 0; bit < 8 * LENGTH; bit += bit < 8 * 96 ? 1 : 65537) {
        image[bit / 8] ^= (unsigned char)(1u << bit % 8);
        const uint32_t refusal = heatherplane_image_view(image, LENGTH, &view);
        EXPECT(refusal != 0);
        EXPECT(bit >= 64 || refusal == HEATHERPLANE_IMAGE_BAD_MAGIC);
        EXPECT(bit < 64 || bit >= 96 || refusal == HEATHERPLANE_IMAGE_BAD_VERSION);
        EXPECT(bit < 640 || refusal == HEATHERPLANE_IMAGE_BAD_CRC);
        EXPECT(heatherplane_look_up_view(&view, 1).refusal == HEATHERPLANE_BAD_PARAMETERS);
        image[bit / 8] ^= (unsigned char)(1u << bit % 8);
    }
    memmove(image + 4, image, LENGTH);
    EXPECT(heatherplane_image_view(image + 4, LENGTH, &view) == HEATHERPLANE_IMAGE_UNALIGNED);
    memmove(image, image + 4, LENGTH);
    group("images that are damaged");
}

static bool same_file(const struct heatherplane_file *a, const struct heatherplane_file *b)
{
    return !memcmp(a->separators, b->separators, PAGES) && !memcmp(a->numbers, b->numbers, 4 * ITEMS)
           && !memcmp(a->words, b->words, 8 * ITEMS) && !memcmp(a->owners, b->owners, ITEMS);
}

/* pages_only, an image of the file without separators, and image, one with: opened by the helper that mends what is torn. */
static void opened_and_mended(const struct heatherplane_file *file)
{
    const size_t length = LENGTH - PAGES;
    struct heatherplane_file mapped;
    struct heatherplane_reply reply;
    EXPECT(heatherplane_image_mend(pages_only, length, NULL, pool_numbers, pool_words, pool_owners, &mapped, &reply)
           == HEATHERPLANE_IMAGE_TORN);
    EXPECT(reply.refusal == HEATHERPLANE_BAD_LENGTH && mapped.numbers_length == 0);
    EXPECT(heatherplane_look_up_in(&mapped, 1).refusal == HEATHERPLANE_BAD_PARAMETERS);
    memset(copy.separators, 0, PAGES);
    EXPECT(heatherplane_image_mend(pages_only, length, copy.separators, pool_numbers, pool_words, pool_owners, &mapped, &reply) == 0);
    EXPECT(reply.refusal == 0 && same_file(&mapped, file) && same_record(mapped.growth, file->growth));
    EXPECT(heatherplane_check_in(&mapped).refusal == 0);
    /* found open, in the middle of an entry and of a growth in steps, which is given up */
    mapped.growth.open = 1;
    mapped.growth.steps = 3;
    EXPECT(heatherplane_image_open(pages_only, &mapped) == 0);
    memset(copy.separators, 255, PAGES);
    EXPECT(heatherplane_image_mend(pages_only, length, copy.separators, pool_numbers, pool_words, pool_owners, &mapped, NULL) == 0);
    EXPECT(same_file(&mapped, file) && same_record(mapped.growth, file->growth));
    /* what cannot be mended stays torn and as it was */
    mapped.numbers[0] = 2147483647;
    EXPECT(heatherplane_image_seal(pages_only, &mapped) == 0);
    const uint32_t crc = heatherplane_crc32c(0, pages_only, length);
    EXPECT(heatherplane_image_mend(pages_only, length, copy.separators, pool_numbers, pool_words, pool_owners, &mapped, &reply)
           == HEATHERPLANE_IMAGE_TORN);
    EXPECT(reply.refusal == HEATHERPLANE_BAD_CONTENTS && mapped.numbers_length == 0);
    EXPECT(heatherplane_crc32c(0, pages_only, length) == crc);
    EXPECT(heatherplane_image_mend(pages_only, length - 1, copy.separators, pool_numbers, pool_words, pool_owners, &mapped, &reply)
           == HEATHERPLANE_IMAGE_BAD_LENGTH);
    EXPECT(reply.refusal == 0);
    /* one that is whole is pointed at, and no more */
    memcpy(pages_only, image, LENGTH);
    EXPECT(heatherplane_image_mend(image, LENGTH, NULL, pool_numbers, pool_words, pool_owners, &mapped, &reply) == 0);
    EXPECT(reply.refusal == 0 && !memcmp(pages_only, image, LENGTH));
}

static void images(const struct heatherplane_file *file, uint32_t stars)
{
    const struct heatherplane_view saved = heatherplane_view_in(file);
    struct heatherplane_view view;
    struct heatherplane_file mapped;
    EXPECT(heatherplane_crc32c(0, "123456789", 9) == 0xE3069283u);
    EXPECT(sizeof(struct heatherplane_image_header) == HEATHERPLANE_IMAGE_HEADER);
    EXPECT(heatherplane_image_length(&file->parameters, true) == LENGTH);
    EXPECT(heatherplane_image_save(image, LENGTH - 1, &saved, true) == HEATHERPLANE_IMAGE_BAD_LENGTH);
    EXPECT(heatherplane_image_save(image, LENGTH, &saved, true) == 0);
    EXPECT(heatherplane_image_view(image, LENGTH, &view) == 0);
    EXPECT(heatherplane_check_view(&view, pool_numbers, pool_words, pool_owners).refusal == 0);
    for (uint32_t i = 0; i < stars; i += 7)
        EXPECT(heatherplane_look_up_view(&view, number_of(i)).ra == ra_of(i));
    damaged_image();

    /* written in place: found open it is torn, sealed it is accepted again */
    EXPECT(heatherplane_image_file(image, LENGTH, NULL, pool_numbers, pool_words, pool_owners, &mapped) == 0);
    EXPECT(heatherplane_image_open(image, &mapped) == 0);
    EXPECT(heatherplane_enter_in(&mapped, 0, number_of(stars), 1, 2).refusal == 0);
    EXPECT(heatherplane_image_view(image, LENGTH, &view) == HEATHERPLANE_IMAGE_TORN && view.numbers_length == 0);
    EXPECT(heatherplane_image_file(image, LENGTH, NULL, pool_numbers, pool_words, pool_owners, &mapped) == HEATHERPLANE_IMAGE_TORN);
    EXPECT(heatherplane_check_in(&mapped).refusal == 0);
    EXPECT(heatherplane_image_seal(image, &mapped) == 0);
    EXPECT(heatherplane_image_view(image, LENGTH, &view) == 0);
    EXPECT(heatherplane_look_up_view(&view, number_of(stars)).dec == 2);
    EXPECT(heatherplane_image_seal(image, file) == HEATHERPLANE_IMAGE_BAD_LENGTH);

    /* without separators: the host's own are lent, and it is mended on opening */
    EXPECT(heatherplane_image_save(pages_only, LENGTH - PAGES, &saved, false) == 0);
    EXPECT(heatherplane_image_view(pages_only, LENGTH - PAGES, &view) == HEATHERPLANE_IMAGE_TORN);
    EXPECT(heatherplane_image_file(pages_only, LENGTH - PAGES, NULL, pool_numbers, pool_words, pool_owners, &mapped)
           == HEATHERPLANE_IMAGE_TORN);
    EXPECT(heatherplane_check_in(&mapped).refusal == HEATHERPLANE_BAD_LENGTH);
    opened_and_mended(file);
    group("images");
}

static void copy_of(const struct heatherplane_file *file)
{
    memcpy(copy.separators, file->separators, PAGES);
    memcpy(copy.numbers, file->numbers, 4 * ITEMS);
    memcpy(copy.words, file->words, 8 * ITEMS);
    memcpy(copy.owners, file->owners, ITEMS);
}

/* The pages of two files that differ. */
static uint32_t pages_apart(const struct heatherplane_file *a, const struct heatherplane_file *b)
{
    uint32_t count = 0;
    for (size_t page = 0; page < PAGES; page++)
        count += memcmp(a->numbers + page * PLACES, b->numbers + page * PLACES, 4 * PLACES) != 0
                 || memcmp(a->words + page * PLACES, b->words + page * PLACES, 8 * PLACES) != 0
                 || memcmp(a->owners + page * PLACES, b->owners + page * PLACES, PLACES) != 0;
    return count;
}

enum { ENTER, CHANGE, REMOVE };

static struct heatherplane_reply stopped(const struct heatherplane_file *file, int kind, uint32_t number, uint32_t stores)
{
    switch (kind) {
    case ENTER:
        return heatherplane_enter_stopped_in(file, 1, number, 5, 6, stores);
    case CHANGE:
        return heatherplane_change_stopped_in(file, 0, number, 5, 6, stores);
    default:
        return heatherplane_remove_stopped_in(file, 0, number, stores);
    }
}

/* A call stopped after every number of stores from 0 to two more than it has: so many pages are as after it and the others as before, the
 * reply is the whole call's, and mending, whatever the separators are, makes the file before it or the file after it. Answers how many
 * pages the call stores. */
static uint32_t stop_everywhere(const struct heatherplane_file *file, const struct heatherplane_file *torn,
                                const struct heatherplane_file *whole, int kind, uint32_t number)
{
    struct heatherplane_reply told, reply;
    uint32_t stores;
    memcpy(whole->separators, file->separators, PAGES);
    memcpy(whole->numbers, file->numbers, 4 * ITEMS);
    memcpy(whole->words, file->words, 8 * ITEMS);
    memcpy(whole->owners, file->owners, ITEMS);
    told = stopped(whole, kind, number, PAGES);
    EXPECT(told.refusal == 0);
    EXPECT(heatherplane_check_in(whole).refusal == 0);
    stores = pages_apart(file, whole);
    for (uint32_t stop = 0; stop <= stores + 2; stop++) {
        copy_of(file);
        reply = stopped(torn, kind, number, stop);
        EXPECT(reply.refusal == 0 && reply.page == told.page && reply.place == told.place);
        EXPECT(pages_apart(torn, file) == (stop < stores ? stop : stores));
        EXPECT(pages_apart(torn, whole) == (stop < stores ? stores - stop : 0));
        EXPECT(stop < stores || kind == CHANGE || same_file(torn, whole));
        memset(copy.separators, (int)(stop * 85 % 256), PAGES);
        EXPECT(heatherplane_mend_in(torn).refusal == 0);
        EXPECT(same_file(torn, file) || same_file(torn, whole));
        EXPECT(stop > 0 || same_file(torn, file));
        EXPECT(stop < stores || same_file(torn, whole));
    }
    return stores;
}

/* Calls stopped anywhere, pages whose separators are lost, and pages that cannot be mended. */
static void mends(struct heatherplane_file *file, const struct heatherplane_file *whole, uint32_t stars)
{
    const struct heatherplane_file torn = heatherplane_file_of(
        file->parameters, file->growth, copy.separators, copy.numbers, copy.words, copy.owners, pool_numbers, pool_words, pool_owners);
    uint32_t most = 0, several = 0;
    for (uint32_t i = 0; i < 60; i++) {
        const uint32_t entered = stop_everywhere(file, &torn, whole, ENTER, number_of(stars + i));
        const uint32_t removed = stop_everywhere(file, &torn, whole, REMOVE, number_of(i * 31 % stars));
        EXPECT(stop_everywhere(file, &torn, whole, CHANGE, number_of(i * 17 % stars)) == 1);
        several += (entered > 1) + (removed > 1);
        most = entered > most ? entered : most;
        most = removed > most ? removed : most;
    }
    EXPECT(several > 0);
    EXPECT(pool_is_zero());
    printf("%" PRIu32 " of 120 entries and removals store several pages, at most %" PRIu32 "\n", several, most);
    copy_of(file);
    copy.owners[0] ^= copy.numbers[0] ? 0 : 1;
    copy.numbers[0] = 2147483647;
    EXPECT(heatherplane_mend_in(&torn).refusal == HEATHERPLANE_BAD_CONTENTS);
    group("stopped calls and mending");
}

static unsigned char table[5760 + 12 * ITEMS + 2880];

static void tables(struct heatherplane_file *file, struct heatherplane_file *into)
{
    const struct heatherplane_view view = heatherplane_view_in(file);
    const struct heatherplane_reply told = heatherplane_write_table_view(&view, table, sizeof table);
    const uint32_t stars = heatherplane_due_in(file).stars;
    EXPECT(told.refusal == 0 && told.stars == 5760 + (12 * stars + 2879) / 2880 * 2880);
    EXPECT(heatherplane_write_table_view(&view, table, told.stars - 1).refusal == HEATHERPLANE_SHORT_OUTPUT);
    EXPECT(!memcmp(table, "SIMPLE  =", 9));
    into->growth = file->growth;
    EXPECT(heatherplane_read_table_in(into, table, told.stars - 1).refusal == HEATHERPLANE_BAD_HEADER);
    EXPECT(heatherplane_read_table_in(into, table, told.stars).refusal == 0);
    EXPECT(!memcmp(into->numbers, file->numbers, 4 * ITEMS) && !memcmp(into->words, file->words, 8 * ITEMS));
    EXPECT(heatherplane_check_in(into).refusal == 0);
    table[5760 + 3] ^= 255;
    table[5760] = 255;
    EXPECT(heatherplane_read_table_in(into, table, told.stars).refusal == HEATHERPLANE_BAD_ROWS);
    group("tables");
}

static void carries(struct heatherplane_file *file, struct heatherplane_file *into)
{
    const struct heatherplane_view view = heatherplane_view_in(file);
    struct heatherplane_file back = heatherplane_file_of(
        file->parameters, file->growth, copy.separators, copy.numbers, copy.words, copy.owners, pool_numbers, pool_words, pool_owners);
    into->growth = file->growth;
    EXPECT(heatherplane_carry_in(&view, into).refusal == HEATHERPLANE_BAD_PARAMETERS);
    into->parameters.multiplier = HEATHERPLANE_MULTIPLIER_1988;
    EXPECT(heatherplane_carry_in(&view, into).refusal == 0);
    EXPECT(heatherplane_check_in(into).refusal == 0);
    const struct heatherplane_view there = heatherplane_view_in(into);
    EXPECT(heatherplane_carry_in(&there, &back).refusal == 0);
    EXPECT(same_file(&back, file));
    group("carrying there and back");
}

/* Calls at once answer and leave what they do one by one. */
static void replays(struct heatherplane_file *file, uint32_t stars)
{
    enum { CALLS = 900 };
    static uint8_t kinds[CALLS], callers[CALLS];
    static uint32_t numbers[CALLS], ras[CALLS], answers[8 * CALLS];
    static int32_t decs[CALLS];
    struct heatherplane_file single = heatherplane_file_of(
        file->parameters, file->growth, copy.separators, copy.numbers, copy.words, copy.owners, pool_numbers, pool_words, pool_owners);
    const struct heatherplane_growth before = file->growth;
    copy_of(file);
    for (uint32_t i = 0; i < CALLS; i++) {
        kinds[i] = (uint8_t)(i % 50 == 0 ? HEATHERPLANE_GROW + i / 50 % 4 : (uint32_t[]){0, 1, 2, 3, 8}[i % 5]);
        callers[i] = (uint8_t)(i % 3);
        numbers[i] = number_of(i % 5 == 1 || i % 5 == 4 ? stars + i : i * 13 % (stars + 40));
        ras[i] = ra_of(i);
        decs[i] = dec_of(i);
    }
    kinds[5] = 9;
    EXPECT(heatherplane_replay_in(file, CALLS, kinds, callers, numbers, ras, decs, answers).refusal == HEATHERPLANE_BAD_KIND);
    kinds[5] = 0;
    EXPECT(heatherplane_replay_in(file, CALLS, kinds, NULL, numbers, ras, decs, answers).refusal == HEATHERPLANE_BAD_LENGTH);
    file->growth.open = 1;
    EXPECT(heatherplane_replay_in(file, CALLS, kinds, callers, numbers, ras, decs, answers).refusal == HEATHERPLANE_OUT_OF_TURN);
    file->growth.open = 0;
    file->growth.steps = 1;
    EXPECT(heatherplane_replay_in(file, CALLS, kinds, callers, numbers, ras, decs, answers).refusal == HEATHERPLANE_BAD_PARAMETERS);
    file->growth.steps = 0;
    EXPECT(same_file(&single, file) && same_record(file->growth, before));
    EXPECT(heatherplane_replay_in(file, 0, kinds, callers, numbers, ras, decs, answers).refusal == 0);
    EXPECT(heatherplane_replay_in(file, CALLS, kinds, callers, numbers, ras, decs, answers).refusal == 0);
    for (uint32_t i = 0; i < CALLS; i++) {
        struct heatherplane_reply reply;
        const uint32_t *answer = answers + 8 * i;
        switch (kinds[i]) {
        case HEATHERPLANE_LOOK_UP: reply = heatherplane_look_up_in(&single, numbers[i]); break;
        case HEATHERPLANE_ENTER: reply = heatherplane_enter_in(&single, callers[i], numbers[i], ras[i], decs[i]); break;
        case HEATHERPLANE_CHANGE: reply = heatherplane_change_in(&single, callers[i], numbers[i], ras[i], decs[i]); break;
        case HEATHERPLANE_REMOVE: reply = heatherplane_remove_in(&single, callers[i], numbers[i]); break;
        case HEATHERPLANE_GROW: reply = heatherplane_grow_in(&single); break;
        case HEATHERPLANE_DUE: reply = heatherplane_due_in(&single); break;
        case HEATHERPLANE_CHECK: reply = heatherplane_check_in(&single); break;
        case HEATHERPLANE_SHRINK: reply = heatherplane_shrink_in(&single); break;
        default: reply = heatherplane_cascade_in(&single, callers[i], numbers[i], ras[i], decs[i]); break;
        }
        EXPECT(answer[0] == reply.refusal && answer[1] == reply.page && answer[2] == reply.place && answer[3] == reply.found);
        EXPECT(answer[4] == reply.ra && answer[5] == (uint32_t)reply.dec + 0x80000000u && answer[6] == reply.due
               && answer[7] == reply.stars);
    }
    EXPECT(same_file(&single, file) && same_record(file->growth, single.growth));
    group("replays");
}

/* The full tray of `collects`, filed into a copy of the file: owner 3 may not change star 0, which is the institute's. */
static void files(const struct heatherplane_file *file, struct heatherplane_tray *tray)
{
    struct heatherplane_file filed = heatherplane_file_of(
        file->parameters, file->growth, copy.separators, copy.numbers, copy.words, copy.owners, pool_numbers, pool_words, pool_owners);
    struct heatherplane_tray none = heatherplane_tray_of(NULL, NULL);
    const uint32_t bits = heatherplane_filter_bits_in(tray).bits;
    copy_of(file);
    EXPECT(heatherplane_file_reports_in(&filed, &none).refusal == HEATHERPLANE_BAD_LENGTH && none.count == 0);
    filed.growth.open = 1;
    EXPECT(heatherplane_file_reports_in(&filed, tray).refusal == HEATHERPLANE_OUT_OF_TURN && tray->count == 256);
    filed.growth.open = 0;
    const struct heatherplane_reply own = heatherplane_change_in(&filed, 3, tray->reports[0].number, 17, -18);
    struct heatherplane_filed answer = heatherplane_file_reports_in(&filed, tray);
    EXPECT(answer.refusal == HEATHERPLANE_NOT_OWNER && answer.filed == 0 && answer.count == 256 && tray->count == 256);
    EXPECT(answer.refusal == own.refusal && answer.page == own.page && answer.place == own.place);
    EXPECT(same_file(&filed, file) && heatherplane_filter_bits_in(tray).bits == bits && pool_is_zero());
    tray->reports[0].owner = tray->reports[1].owner = 0;
    answer = heatherplane_file_reports_in(&filed, tray);
    EXPECT(answer.refusal == 0 && answer.filed == 256 && answer.count == 0 && tray->count == 0);
    EXPECT(!heatherplane_look_up_in(&filed, number_of(0)).found && heatherplane_filter_bits_in(tray).bits == 0 && pool_is_zero());
    for (uint32_t i = 1; i < 255; i++)
        EXPECT(heatherplane_look_up_in(&filed, number_of(0) + i).ra == 17 && tray->reports[i].number == 0);
    EXPECT(heatherplane_check_in(&filed).refusal == 0);
    answer = heatherplane_file_reports_in(&filed, tray);
    EXPECT(answer.refusal == 0 && answer.filed == 0 && answer.count == 0);
    group("reports filed");
}

/* Reports on held stars and others, until no more are taken. */
static void collects(const struct heatherplane_file *file)
{
    static struct heatherplane_report reports[HEATHERPLANE_TRAY_REPORTS];
    static uint64_t filter[HEATHERPLANE_TRAY_WORDS];
    const struct heatherplane_view view = heatherplane_view_in(file);
    struct heatherplane_tray tray = heatherplane_tray_of(reports, filter), none = heatherplane_tray_of(NULL, NULL);
    struct heatherplane_report report = {number_of(0), 17, -18, 3, 0};
    EXPECT(heatherplane_add_report_in(&view, &none, report).refusal == HEATHERPLANE_BAD_LENGTH && none.count == 0);
    EXPECT(heatherplane_filter_bits_in(&none).refusal == HEATHERPLANE_BAD_LENGTH);
    EXPECT(heatherplane_look_up_with_tray_view(&view, &none, report.number).refusal == HEATHERPLANE_BAD_LENGTH);
    EXPECT(heatherplane_look_up_with_tray_view(&view, &tray, report.number).ra == heatherplane_look_up_in(file, report.number).ra);
    EXPECT(heatherplane_add_report_in(&view, &tray, report).refusal == 0 && tray.count == 1);
    struct heatherplane_reply reply = heatherplane_look_up_with_tray_view(&view, &tray, report.number);
    EXPECT(reply.found && reply.ra == 17 && reply.dec == -18 && reply.page == file->parameters.pages && reply.place == 0);
    report.removed = 1;
    EXPECT(heatherplane_add_report_in(&view, &tray, report).refusal == 0 && tray.count == 2);
    EXPECT(reports[1].ra == 0 && reports[1].dec == 0 && reports[1].owner == 3 && reports[1].removed == 1);
    EXPECT(!heatherplane_look_up_with_tray_view(&view, &tray, report.number).found);
    EXPECT(heatherplane_filter_bits_in(&tray).bits == 3);
    report.removed = 0;
    report.dec = 324000001;
    EXPECT(heatherplane_add_report_in(&view, &tray, report).refusal == HEATHERPLANE_BAD_POSITION && tray.count == 2);
    report.dec = 0;
    while (tray.count < HEATHERPLANE_TRAY_REPORTS) {
        report.number++;
        EXPECT(heatherplane_add_report_in(&view, &tray, report).refusal == 0);
    }
    EXPECT(heatherplane_add_report_in(&view, &tray, report).refusal == HEATHERPLANE_TRAY_FULL && tray.count == 256);
    group("reports collected");
    files(file, &tray);
}

static void save(const char *name)
{
    FILE *out = fopen(name, "wb");
    EXPECT(out && fwrite(image, LENGTH, 1, out) == 1);
    EXPECT(out && fclose(out) == 0);
}

int main(int count, char **arguments)
{
    const uint32_t stars = count > 1 ? (uint32_t)strtoul(arguments[1], NULL, 10) : 20000;
    struct heatherplane_file file = file_in(&first, 8), second = file_in(&other, 8);
    bad_handles();
    position_words();
    fill(&file, stars);
    read_all(&file, stars);
    change(&file);
    marks(&file);
    shrink(&file, stars);
    steps(&file, &second, stars);
    states(stars);
    collects(&file);
    images(&file, stars);
    struct heatherplane_file whole = file_in(file.separators == first.separators ? &other : &first, 8);
    whole.growth = file.growth;
    mends(&file, &whole, stars);
    tables(&file, &second);
    carries(&file, &second);
    replays(&file, stars);
    if (count > 2)
        save(arguments[2]);
    printf("%u passed, %u failed\n", passed, failed);
    return failed != 0;
}
