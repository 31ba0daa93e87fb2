/* A unit that keeps the pages of a star file on disk and may be switched off at any moment:
 *
 *     unit PAGES CALLS PAUSE b N n0 s k A M multiplier e x
 *
 * PAGES has a sector for each page: its numbers, words and owners. Separators are not stored. The unit mends what it finds there, puts
 * the mended pages in its place, and works through CALLS on buffers in memory. After each call it stores the pages that differ, each
 * with one write, the highest first after an entry and the lowest first after a removal, with a pause of so many microseconds after
 * each. Before each call it writes a byte to standard output, by which the test that switches it off knows how far it came. */
#define _POSIX_C_SOURCE 200809L
#include <fcntl.h>
#include <stdio.h>
#include <stdlib.h>
#include <string.h>
#include <time.h>
#include <unistd.h>

#include "heatherplane.h"

enum { SECTOR = 512, MOST_PAGES = 1024, MOST_PLACES = 32, MOST_ITEMS = MOST_PAGES * MOST_PLACES };

static struct heatherplane_file file;
static uint8_t separators[MOST_PAGES], owners[MOST_ITEMS], pool_owners[MOST_ITEMS];
static uint32_t numbers[MOST_ITEMS], pool_numbers[MOST_ITEMS];
static uint64_t words[MOST_ITEMS], pool_words[MOST_ITEMS];

/* What the disk holds. */
static uint8_t sectors[MOST_PAGES][SECTOR];

enum kind { ENTER, CHANGE, REMOVE };

struct call {
    uint32_t kind, caller, number, ra;
    int32_t dec;
};

static void fail(const char *what)
{
    fprintf(stderr, "unit: %s\n", what);
    exit(1);
}

static void to_sector(uint32_t page, uint8_t *sector)
{
    const size_t b = file.parameters.places, first = page * b;
    memset(sector, 0, SECTOR);
    memcpy(sector, numbers + first, 4 * b);
    memcpy(sector + 4 * b, words + first, 8 * b);
    memcpy(sector + 12 * b, owners + first, b);
}

static void from_sector(uint32_t page, const uint8_t *sector)
{
    const size_t b = file.parameters.places, first = page * b;
    memcpy(numbers + first, sector, 4 * b);
    memcpy(words + first, sector + 4 * b, 8 * b);
    memcpy(owners + first, sector + 12 * b, b);
}

/* Reads all pages and mends them. As a mended file must not be stored page by page over the one it came from, it becomes a file of
 * its own, which then takes the other's name. */
static int opened(const char *path)
{
    const uint32_t pages = file.parameters.pages;
    char fresh[4096];
    int disk = open(path, O_RDONLY);
    if (disk < 0 || read(disk, sectors, (size_t)pages * SECTOR) != (ssize_t)pages * SECTOR || close(disk))
        fail("no pages");
    for (uint32_t page = 0; page < pages; page++)
        from_sector(page, sectors[page]);
    if (heatherplane_mend_in(&file).refusal || heatherplane_check_in(&file).refusal)
        fail("the pages cannot be mended");
    for (uint32_t page = 0; page < pages; page++)
        to_sector(page, sectors[page]);
    if (snprintf(fresh, sizeof fresh, "%s.new", path) >= (int)sizeof fresh)
        fail("the name is too long");
    disk = open(fresh, O_RDWR | O_CREAT | O_TRUNC, 0666);
    if (disk < 0 || write(disk, sectors, (size_t)pages * SECTOR) != (ssize_t)pages * SECTOR || rename(fresh, path))
        fail("the mended pages cannot be stored");
    return disk;
}

/* Stores a page, if its places differ from those on disk. */
static void store(int disk, uint32_t page, long pause)
{
    uint8_t sector[SECTOR];
    to_sector(page, sector);
    if (memcmp(sector, sectors[page], SECTOR) == 0)
        return;
    if (pwrite(disk, sector, SECTOR, (off_t)page * SECTOR) != SECTOR)
        fail("a page cannot be stored");
    memcpy(sectors[page], sector, SECTOR);
    if (pause)
        nanosleep(&(struct timespec){.tv_nsec = 1000 * pause}, NULL);
}

static struct heatherplane_reply run(const struct call *call)
{
    const uint8_t caller = (uint8_t)call->caller;
    switch (call->kind) {
    case ENTER:
        return heatherplane_enter_in(&file, caller, call->number, call->ra, call->dec);
    case CHANGE:
        return heatherplane_change_in(&file, caller, call->number, call->ra, call->dec);
    default:
        return heatherplane_remove_in(&file, caller, call->number);
    }
}

int main(int count, char **arguments)
{
    if (count != 14)
        fail("wrong arguments");
    uint32_t values[10];
    for (int i = 0; i < 10; i++)
        values[i] = (uint32_t)strtoul(arguments[4 + i], NULL, 10);
    const struct heatherplane_parameters parameters = {
        values[0], values[1], values[2], values[3], values[4], values[5], values[6], values[7]};
    const struct heatherplane_growth growth = {values[8], values[9], 0, 0};
    const long pause = strtol(arguments[3], NULL, 10);
    if (parameters.pages > MOST_PAGES || parameters.places > MOST_PLACES)
        fail("too many places");
    file = heatherplane_file_of(parameters, growth, separators, numbers, words, owners, pool_numbers, pool_words, pool_owners);
    const int disk = opened(arguments[1]);
    FILE *calls = fopen(arguments[2], "rb");
    if (!calls)
        fail("no calls");
    struct call call;
    while (fread(&call, sizeof call, 1, calls) == 1) {
        if (write(STDOUT_FILENO, "+", 1) != 1)
            fail("nobody listens");
        if (run(&call).refusal)
            continue;
        for (uint32_t i = 0; i < parameters.pages; i++)
            store(disk, call.kind == ENTER ? parameters.pages - 1 - i : i, pause);
    }
    return 0;
}
