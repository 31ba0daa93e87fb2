/* How much stack each call from C needs: the call runs on a thread whose stack was painted, and the paint that is left tells.
 * The calls are those of a history on the largest file: at first without a growth, so that entries and removals have long reaches,
 * then mendings, tables and carrying of that file, then growths, steps and shrinkings of what has come of it. */
#define _POSIX_C_SOURCE 200809L

#include <pthread.h>
#include <stdio.h>
#include <stdlib.h>
#include <string.h>

#include "heatherplane.h"

enum { PAGES = 1024, PLACES = 32, ITEMS = PAGES * PLACES, STARS = 4000, GROWTHS = 64, PAINT = 0xA5, STACK = 256 * 1024 };

static _Alignas(4096) unsigned char stack[STACK];
static uint8_t separators[PAGES], second_separators[PAGES], old_separators[PAGES], marks[PAGES];
static uint32_t numbers[ITEMS], second_numbers[ITEMS], pool_numbers[ITEMS];
static uint64_t words[ITEMS], second_words[ITEMS], pool_words[ITEMS];
static uint8_t owners[ITEMS], second_owners[ITEMS], pool_owners[ITEMS];

static uint8_t table[5760 + 12 * ITEMS + 2880];
static size_t table_length;

static struct heatherplane_file file, second, carried;
static struct heatherplane_report reports[HEATHERPLANE_TRAY_REPORTS];
static uint64_t filter[HEATHERPLANE_TRAY_WORDS];
static struct heatherplane_tray tray;
static struct heatherplane_growth before;

static uint32_t nothing(uint32_t number) { (void)number; return 0; }
static uint32_t make(uint32_t number) { (void)number; return heatherplane_make_in(&file).refusal; }
static uint32_t state_for(uint32_t number)
{
    const struct heatherplane_parameters *p = &file.parameters;
    return heatherplane_state_for(p->places, p->groups, p->width, p->step, p->bits, p->load, p->pages, p->multiplier, number).refusal;
}
static uint32_t look_up(uint32_t number) { return heatherplane_look_up_in(&file, number).refusal; }
static uint32_t enter(uint32_t number) { return heatherplane_enter_in(&file, 0, number, 1, 0).refusal; }
static uint32_t cascade(uint32_t number) { return heatherplane_cascade_in(&file, 0, number, 1, 0).refusal; }
static uint32_t change(uint32_t number) { return heatherplane_change_in(&file, 0, number, 2, 0).refusal; }
static uint32_t take_out(uint32_t number) { return heatherplane_remove_in(&file, 0, number).refusal; }
static uint32_t due(uint32_t number) { (void)number; return heatherplane_due_in(&file).refusal; }
static uint32_t grow(uint32_t number) { (void)number; return heatherplane_grow_in(&file).refusal; }
static uint32_t shrink(uint32_t number) { (void)number; return heatherplane_shrink_in(&file).refusal; }
static uint32_t check(uint32_t number) { (void)number; return heatherplane_check_in(&file).refusal; }
static uint32_t open_growth(uint32_t number) { (void)number; return heatherplane_open_growth_in(&file, &second).refusal; }
static uint32_t step_growth(uint32_t number) { (void)number; return heatherplane_step_growth_in(&file, &second).refusal; }
static uint32_t mark(uint32_t number) { (void)number; return heatherplane_mark_changed_in(&file, &before, old_separators, marks); }

static uint32_t enter_stopped(uint32_t number) { return heatherplane_enter_stopped_in(&file, 0, number, 1, 0, number % 3).refusal; }
static uint32_t change_stopped(uint32_t number) { return heatherplane_change_stopped_in(&file, 0, number, 3, 0, number % 2).refusal; }
static uint32_t remove_stopped(uint32_t number) { return heatherplane_remove_stopped_in(&file, 0, number, number % 3).refusal; }
static uint32_t mend(uint32_t number) { (void)number; return heatherplane_mend_in(&file).refusal; }
static uint32_t write_table(uint32_t number)
{
    const struct heatherplane_view view = heatherplane_view_in(&file);
    const struct heatherplane_reply reply = heatherplane_write_table_view(&view, table, sizeof table);
    (void)number;
    table_length = reply.stars;
    return reply.refusal;
}
static uint32_t read_table(uint32_t number) { (void)number; return heatherplane_read_table_in(&file, table, table_length).refusal; }
static uint32_t carry(uint32_t number)
{
    const struct heatherplane_view view = heatherplane_view_in(&file);
    (void)number;
    return heatherplane_carry_in(&view, &carried).refusal;
}
static uint32_t replay(uint32_t number)
{
    const uint8_t kinds[] = {5, 0, 2, 3, 1, 3, 8}, callers[7] = {0};
    const uint32_t stars[] = {0, number, number, number, number, number, number}, ras[] = {0, 0, 1, 0, 1, 0, 1};
    const int32_t decs[7] = {0};
    uint32_t answers[56];
    return heatherplane_replay_in(&file, 7, kinds, callers, stars, ras, decs, answers).refusal;
}
static uint32_t add_report(uint32_t number)
{
    const struct heatherplane_view view = heatherplane_view_in(&file);
    const struct heatherplane_report report = {number, 1, 0, 0, 0};
    return heatherplane_add_report_in(&view, &tray, report).refusal;
}
static uint32_t look_up_with_tray(uint32_t number)
{
    const struct heatherplane_view view = heatherplane_view_in(&file);
    return heatherplane_look_up_with_tray_view(&view, &tray, number).refusal;
}
static uint32_t file_reports(uint32_t number) { (void)number; return heatherplane_file_reports_in(&file, &tray).refusal; }
static uint32_t filter_bits(uint32_t number) { (void)number; return heatherplane_filter_bits_in(&tray).refusal; }
static uint32_t version(uint32_t number) { (void)number; return heatherplane_version() != HEATHERPLANE_VERSION; }

enum call {
    NOTHING, MAKE, STATE_FOR, LOOK_UP, ENTER, CASCADE, CHANGE, REMOVE, DUE, GROW, SHRINK, CHECK, OPEN, STEP, ENTER_STOPPED,
    CHANGE_STOPPED, REMOVE_STOPPED, MEND, WRITE_TABLE, READ_TABLE, CARRY, REPLAY, ADD_REPORT, LOOK_UP_WITH_TRAY, FILE_REPORTS,
    FILTER_BITS, MARK, VERSION, CALLS
};
static const struct {
    const char *name;
    uint32_t (*run)(uint32_t);
} calls[CALLS] = {
    {"no call", nothing}, {"make", make}, {"state_for", state_for}, {"look_up", look_up}, {"enter", enter}, {"cascade", cascade},
    {"change", change}, {"remove", take_out}, {"due", due}, {"grow", grow}, {"shrink", shrink}, {"check", check},
    {"open_growth", open_growth}, {"step_growth", step_growth}, {"enter_stopped", enter_stopped},
    {"change_stopped", change_stopped}, {"remove_stopped", remove_stopped}, {"mend", mend}, {"write_table", write_table},
    {"read_table", read_table}, {"carry", carry}, {"replay", replay}, {"add_report", add_report},
    {"look_up_with_tray", look_up_with_tray}, {"file_reports", file_reports}, {"filter_bits", filter_bits}, {"mark_changed", mark},
    {"version", version},
};

struct job {
    enum call call;
    uint32_t number;
    uint32_t refusal;
    unsigned char *frame;
};

static void *run(void *argument)
{
    struct job *job = argument;
    job->frame = __builtin_frame_address(0);
    job->refusal = calls[job->call].run(job->number);
    return NULL;
}

/* The bytes below the caller's frame that one call wrote to. */
static size_t used(enum call call, uint32_t number, uint32_t *refusal)
{
    struct job job = {call, number, 0, NULL};
    pthread_attr_t attributes;
    pthread_t thread;
    memset(stack, PAINT, STACK);
    if (pthread_attr_init(&attributes) || pthread_attr_setstack(&attributes, stack, STACK)
        || pthread_create(&thread, &attributes, run, &job) || pthread_join(thread, NULL))
        exit(2);
    pthread_attr_destroy(&attributes);
    *refusal = job.refusal;
    unsigned char *lowest = stack;
    while (lowest < job.frame && *lowest == PAINT)
        lowest++;
    return (size_t)(job.frame - lowest);
}

static size_t greatest[CALLS], made[CALLS], refused[CALLS];

static void measure(enum call call, uint32_t number)
{
    uint32_t refusal;
    size_t bytes = used(call, number, &refusal);
    if (bytes > greatest[call])
        greatest[call] = bytes;
    made[call]++;
    refused[call] += refusal != 0;
}

static void entries(void)
{
    for (uint32_t number = 1; number <= STARS; number++) {
        measure(ENTER, number);
        measure(LOOK_UP, 1 + number * 7 % STARS);
        if (number % 3 == 0)
            measure(REMOVE, 1 + number * 5 % STARS);
        if (number % 5 == 0)
            measure(CHANGE, 1 + number * 11 % STARS);
        if (number % 1000 == 0)
            fprintf(stderr, "%u of %d stars entered\n", (unsigned)number, STARS);
    }
    /* those removed come back */
    for (uint32_t number = 1; number <= STARS; number++)
        measure(CASCADE, number);
    for (enum call call = STATE_FOR; call <= REMOVE; call++)
        measure(call, 0);
}

/* Calls stopped early and mended each, then the file as a table and under the other multiplier. */
static void whole_files(void)
{
    for (uint32_t number = 1; number <= 300; number++) {
        measure(REMOVE_STOPPED, number);
        if (number % 3 == 1)
            measure(MEND, 0);
        measure(CHANGE_STOPPED, number + 300);
        measure(ENTER_STOPPED, STARS + number);
        if (number % 3 == 2)
            measure(MEND, 0);
    }
    for (uint32_t number = 1; number <= 300; number++) {
        measure(ADD_REPORT, number);
        measure(LOOK_UP_WITH_TRAY, number);
        measure(LOOK_UP_WITH_TRAY, number + 300);
    }
    measure(FILTER_BITS, 0);
    measure(MEND, 0);
    measure(FILE_REPORTS, 0);
    for (uint32_t number = 1; number <= 256; number++)
        measure(ADD_REPORT, 2 * STARS + number);
    measure(FILE_REPORTS, 0);
    measure(WRITE_TABLE, 0);
    measure(READ_TABLE, 0);
    measure(CARRY, 0);
    for (uint32_t number = 500; number < 700; number++)
        measure(REPLAY, number);
}

static void growths(void)
{
    for (int growth = 0; growth < GROWTHS; growth++) {
        measure(DUE, 0);
        before = file.growth;
        memcpy(old_separators, separators, PAGES);
        measure(GROW, 0);
        measure(MARK, 0);
        measure(CHECK, 0);
    }
    for (int growth = 0; growth < GROWTHS / 2; growth++)
        measure(SHRINK, 0);
    measure(OPEN, 0);
    for (int step = 0; step < GROWTHS; step++)
        measure(STEP, 0);
}

int main(void)
{
    const struct heatherplane_parameters parameters = {PLACES, 2, 1, 1, 8, 80, PAGES, HEATHERPLANE_MULTIPLIER_1988};
    const struct heatherplane_growth none = {0, 0, 0, 0};
    file = heatherplane_file_of(parameters, none, separators, numbers, words, owners, pool_numbers, pool_words, pool_owners);
    second = heatherplane_file_of(parameters, none, second_separators, second_numbers, second_words, second_owners, NULL, NULL, NULL);
    tray = heatherplane_tray_of(reports, filter);
    carried = file;
    carried.separators = second_separators, carried.numbers = second_numbers, carried.words = second_words;
    carried.owners = second_owners, carried.parameters.multiplier = HEATHERPLANE_MULTIPLIER_1993;
    measure(NOTHING, 0);
    measure(VERSION, 0);
    measure(MAKE, 0);
    measure(STATE_FOR, STARS);
    entries();
    whole_files();
    growths();
    printf("%-18s %14s %8s %8s\n", "call", "bytes of stack", "calls", "refused");
    for (int call = 0; call < CALLS; call++)
        printf("%-18s %14zu %8zu %8zu\n", calls[call].name, greatest[call], made[call], refused[call]);
    return 0;
}
