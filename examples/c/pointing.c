/* A pointing unit in small: it lends memory to a star file, enters stars, looks them up, removes one, and prints what each call
 * answers. It is C and C++. */
#include <inttypes.h>
#include <stdio.h>

#include <heatherplane.h>

enum { PLACES = 2, PAGES = 8, BITS = 8 };

/* Who calls: the institute, or an observer at the shared telescope. */
enum caller { INSTITUTE = 0, FIRST_OBSERVER = 1, SECOND_OBSERVER = 2 };

static uint8_t separators[PAGES];
static uint32_t numbers[PAGES * PLACES];
static uint64_t words[PAGES * PLACES];
static uint8_t owners[PAGES * PLACES];
static uint32_t pool_numbers[PAGES * PLACES];
static uint64_t pool_words[PAGES * PLACES];
static uint8_t pool_owners[PAGES * PLACES];

static void tell_refusal(const char *call, uint32_t number, struct heatherplane_reply reply)
{
    printf("%s %" PRIu32 ": refused with %" PRIu32 " (%s), page %" PRIu32 "\n",
           call, number, reply.refusal, heatherplane_refusal_name(reply.refusal), reply.page);
}

/* An empty file. As this unit never grows it, it begins with a state for eleven stars, which addresses 7 of its 8 pages and leaves the
 * last one to overflow. */
static struct heatherplane_file empty_file(enum heatherplane_multiplier multiplier)
{
    const struct heatherplane_parameters parameters = {PLACES, 2, 2, 1, BITS, 80, PAGES, multiplier};
    const struct heatherplane_growth new_file = {0, 0, 0, 0};
    struct heatherplane_file file =
        heatherplane_file_of(parameters, new_file, separators, numbers, words, owners, pool_numbers, pool_words, pool_owners);
    const struct heatherplane_reply reply = heatherplane_make_for(&file, 11);
    if (reply.refusal)
        tell_refusal("make", 0, reply);
    return file;
}

static void enter(const struct heatherplane_file *file, enum caller caller, uint32_t number, uint32_t ra, int32_t dec)
{
    struct heatherplane_reply reply = heatherplane_enter_in(file, (uint8_t)caller, number, ra, dec);
    if (reply.refusal)
        tell_refusal("enter", number, reply);
    else
        printf("enter %" PRIu32 ": on page %" PRIu32 "\n", number, reply.page);
}

/* The report's way, one page at a time; on this file, which these calls made, it answers and leaves what enter does. */
static void cascade(const struct heatherplane_file *file, enum caller caller, uint32_t number, uint32_t ra, int32_t dec)
{
    struct heatherplane_reply reply = heatherplane_cascade_in(file, (uint8_t)caller, number, ra, dec);
    if (reply.refusal)
        tell_refusal("cascade", number, reply);
    else
        printf("cascade %" PRIu32 ": on page %" PRIu32 "\n", number, reply.page);
}

static void look_up(const struct heatherplane_file *file, uint32_t number)
{
    struct heatherplane_reply reply = heatherplane_look_up_in(file, number);
    if (reply.refusal)
        tell_refusal("look up", number, reply);
    else if (reply.found)
        printf("look up %" PRIu32 ": on page %" PRIu32 " at %" PRIu32 " %" PRId32 "\n", number, reply.page, reply.ra, reply.dec);
    else
        printf("look up %" PRIu32 ": none, page %" PRIu32 "\n", number, reply.page);
}

/* The browsing screen: the numbers beside a number on its page, or beside where it would stand, read from the lent page. */
static void neighbours(const struct heatherplane_file *file, uint32_t number)
{
    struct heatherplane_reply reply = heatherplane_look_up_in(file, number);
    if (reply.refusal) {
        tell_refusal("neighbours of", number, reply);
        return;
    }
    const uint32_t places = file->parameters.places;
    const uint32_t *page = file->numbers + reply.page * places;
    const uint32_t behind = reply.found ? reply.place + 1 : reply.place;
    /* 0 where there is none, as in an empty place */
    const uint32_t lower = reply.place > 0 ? page[reply.place - 1] : 0;
    const uint32_t higher = behind < places ? page[behind] : 0;
    printf("neighbours of %" PRIu32 ": %" PRIu32 " and %" PRIu32 ", page %" PRIu32 ", place %" PRIu32 "\n",
           number, lower, higher, reply.page, reply.place);
}

/* The owner of a held star, read from the lent page. */
static void tell_owner(const struct heatherplane_file *file, uint32_t number)
{
    struct heatherplane_reply reply = heatherplane_look_up_in(file, number);
    if (!reply.refusal && reply.found)
        printf("owner of %" PRIu32 ": %d\n", number, file->owners[reply.page * file->parameters.places + reply.place]);
}

static void remove_star(const struct heatherplane_file *file, enum caller caller, uint32_t number)
{
    struct heatherplane_reply reply = heatherplane_remove_in(file, (uint8_t)caller, number);
    if (reply.refusal)
        tell_refusal("remove", number, reply);
    else
        printf("remove %" PRIu32 ": from page %" PRIu32 "\n", number, reply.page);
}

int main(void)
{
    struct heatherplane_file file = empty_file(HEATHERPLANE_MULTIPLIER_1988);

    enter(&file, INSTITUTE, 1, 10, -5);
    enter(&file, INSTITUTE, 2, 1295999999, 324000000);
    enter(&file, INSTITUTE, 32349, 364923000, -60138000);
    enter(&file, INSTITUTE, 91262, 1005289000, 139622000);
    look_up(&file, 1);
    look_up(&file, 2);
    look_up(&file, 32349);
    look_up(&file, 3);

    /* of a held star, of numbers between and above the stars of its page, and on an empty page */
    neighbours(&file, 1);
    neighbours(&file, 9);
    neighbours(&file, 32357);
    neighbours(&file, 3);

    /* a resent entry is accepted */
    enter(&file, INSTITUTE, 1, 10, -5);

    /* refusals: the star is held elsewhere, a declination out of range, no star of this number, a pool that is too short */
    enter(&file, INSTITUTE, 1, 20, 5);
    enter(&file, INSTITUTE, 3, 20, 324000001);
    remove_star(&file, INSTITUTE, 3);
    file.pool_words_length--;
    remove_star(&file, INSTITUTE, 1);
    file.pool_words_length++;

    remove_star(&file, INSTITUTE, 1);
    look_up(&file, 1);

    /* a provisional star is its observer's: another can neither remove it nor, by resending it, make it his own */
    enter(&file, FIRST_OBSERVER, 118218, 860000000, -120000);
    remove_star(&file, SECOND_OBSERVER, 118218);
    enter(&file, SECOND_OBSERVER, 118218, 860000000, -120000);
    tell_owner(&file, 118218);
    remove_star(&file, FIRST_OBSERVER, 118218);

    /* the institute may remove every star */
    enter(&file, SECOND_OBSERVER, 118219, 860000000, -120000);
    remove_star(&file, INSTITUTE, 118219);

    /* the cascading entry: a star, the same again, another position for it, and two more */
    cascade(&file, INSTITUTE, 3, 30, 6);
    cascade(&file, INSTITUTE, 3, 30, 6);
    cascade(&file, INSTITUTE, 3, 30, 7);
    cascade(&file, INSTITUTE, 5, 50, 8);
    cascade(&file, INSTITUTE, 6, 60, 9);
    look_up(&file, 3);

    /* while another program's growth is open, look-ups answer from the old file, and nothing may be entered or removed */
    file.growth.open = 1;
    file.growth.steps = 2;
    look_up(&file, 3);
    enter(&file, INSTITUTE, 7, 70, 10);
    cascade(&file, INSTITUTE, 3, 30, 6);
    remove_star(&file, INSTITUTE, 3);
    /* an open growth has fewer steps done than the file has pages */
    file.growth.steps = PAGES;
    look_up(&file, 3);
    /* and it is open or not */
    file.growth.steps = 0;
    file.growth.open = 2;
    look_up(&file, 3);
    /* the growth was given up: the file is as it was */
    file.growth.open = 0;
    file.growth.steps = 0;
    remove_star(&file, INSTITUTE, 3);

    /* damage is found on the page that a star leads to, and told by its page */
    words[heatherplane_look_up_in(&file, 2).page * PLACES] = UINT64_MAX;
    look_up(&file, 2);

    /* a new file under the other multiplier; called with one that is not its own, it answers wrongly or refuses */
    file = empty_file(HEATHERPLANE_MULTIPLIER_1993);
    enter(&file, INSTITUTE, 91262, 1005289000, 139622000);
    look_up(&file, 91262);
    file.parameters.multiplier = HEATHERPLANE_MULTIPLIER_1988;
    look_up(&file, 91262);
    file.parameters.multiplier = 0;
    look_up(&file, 91262);
    return 0;
}
