/* A star file in a mapped image that outlives the program: mapped IMAGE [NUMBER RA DEC]. Without a star it lists the image, which it
 * only reads; with one it enters the star, and makes the image first if there is none. It is C and C++. */
#define _POSIX_C_SOURCE 200809L

#include <errno.h>
#include <fcntl.h>
#include <inttypes.h>
#include <stdio.h>
#include <stdlib.h>
#include <sys/mman.h>
#include <sys/stat.h>
#include <unistd.h>

#include <heatherplane.h>

enum { PLACES = 8, PAGES = 64, ITEMS = PLACES * PAGES };

static uint8_t separators[PAGES], owners[ITEMS], pool_owners[ITEMS];
static uint32_t numbers[ITEMS], pool_numbers[ITEMS];
static uint64_t words[ITEMS], pool_words[ITEMS];

static int fail(const char *what, const char *why)
{
    fprintf(stderr, "%s: %s\n", what, why);
    return 1;
}

/* An empty file, saved under a name that is not there yet. */
static int make_image(const char *name)
{
    const struct heatherplane_parameters parameters = {PLACES, 4, 2, 1, 8, 80, PAGES, HEATHERPLANE_MULTIPLIER_1993};
    const struct heatherplane_growth new_file = {0, 0, 0, 0};
    struct heatherplane_file file =
        heatherplane_file_of(parameters, new_file, separators, numbers, words, owners, pool_numbers, pool_words, pool_owners);
    const struct heatherplane_reply reply = heatherplane_make_for(&file, 300);
    const struct heatherplane_view view = heatherplane_view_in(&file);
    const size_t length = heatherplane_image_length(&parameters, true);
    void *image = malloc(length);
    const int out = open(name, O_WRONLY | O_CREAT | O_EXCL, 0644);
    int bad = out < 0 || !image || reply.refusal || heatherplane_image_save(image, length, &view, true)
              || write(out, image, length) != (ssize_t)length;
    if (out >= 0)
        bad |= close(out) != 0;
    free(image);
    return bad;
}

static void list(const struct heatherplane_view *view)
{
    struct heatherplane_star star;
    size_t item = 0;
    while (heatherplane_next_star(view, &item, &star))
        printf("%" PRIu32 " %" PRIu32 " %" PRId32 " owner %d, page %" PRIu32 ", place %" PRIu32 "\n",
               star.number, star.ra, star.dec, star.owner, star.page, star.place);
}

/* The image is marked as open while a call writes its pages: if the power fails in between, the next start sees it. */
static int enter(void *image, size_t length, uint32_t number, uint32_t ra, int32_t dec)
{
    struct heatherplane_file file;
    struct heatherplane_reply reply;
    uint32_t refusal = heatherplane_image_file(image, length, NULL, pool_numbers, pool_words, pool_owners, &file);
    if (refusal)
        return fail("image", heatherplane_image_refusal_name(refusal));
    if (heatherplane_image_open(image, &file) || msync(image, HEATHERPLANE_IMAGE_HEADER, MS_SYNC))
        return fail("image", "cannot be opened for writing");
    reply = heatherplane_enter_in(&file, 0, number, ra, dec);
    if (msync(image, length, MS_SYNC) || heatherplane_image_seal(image, &file) || msync(image, HEATHERPLANE_IMAGE_HEADER, MS_SYNC))
        return fail("image", "cannot be sealed");
    if (reply.refusal)
        return fail("star", heatherplane_refusal_name(reply.refusal));
    printf("entered on page %" PRIu32 "\n", reply.page);
    return 0;
}

int main(int count, char **arguments)
{
    struct stat status;
    struct heatherplane_view view;
    uint32_t refusal;
    void *image;
    const bool writes = count == 5;
    int in;
    if (count != 2 && count != 5)
        return fail("usage", "mapped IMAGE [NUMBER RA DEC]");
    in = open(arguments[1], writes ? O_RDWR : O_RDONLY);
    if (in < 0 && errno == ENOENT && writes && make_image(arguments[1]) == 0)
        in = open(arguments[1], O_RDWR);
    if (in < 0 || fstat(in, &status) || status.st_size <= 0)
        return fail(arguments[1], "cannot be opened");
    image = mmap(NULL, (size_t)status.st_size, writes ? PROT_READ | PROT_WRITE : PROT_READ, MAP_SHARED, in, 0);
    if (image == MAP_FAILED)
        return fail(arguments[1], "cannot be mapped");
    if (writes)
        return enter(image, (size_t)status.st_size, (uint32_t)strtoul(arguments[2], NULL, 10),
                     (uint32_t)strtoul(arguments[3], NULL, 10), (int32_t)strtol(arguments[4], NULL, 10));
    refusal = heatherplane_image_view(image, (size_t)status.st_size, &view);
    if (refusal)
        return fail("image", heatherplane_image_refusal_name(refusal));
    list(&view);
    return 0;
}
