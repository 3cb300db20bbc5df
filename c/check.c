/*
 * Tests of the C layer: every inline function of mondzafeky.h, on a hall that is static, on the
 * stack and on the heap. What the calls do is proved, and tried by the harness; here it is asked
 * that the layer hands the right memories on, in the right order, and reads a hall where
 * docs/LAYOUT.md says. Compiled as C99 and as C++ by tools/check-c. Prints the first thing that is
 * not as it must be and ends with status 1; prints nothing otherwise.
 */
#include "mondzafeky.h"

#include <stdio.h>
#include <stdlib.h>
#include <string.h>

#define ACCEPTED MONDZAFEKY_ACCEPTED
#define NOTHING MONDZAFEKY_NOTHING

/* Fails, with the place, unless the condition holds. */
#define CHECK(condition) \
    do { \
        if (!(condition)) { \
            printf("c/check.c, line %d: not so: %s\n", __LINE__, #condition); \
            exit(1); \
        } \
    } while (0)

/* Fails unless a reply has these three numbers. */
#define REPLIES(call, number, count, ending) \
    check_reply(__LINE__, #call, call, number, count, ending)

static void check_reply(
    int line, const char *call, mondzafeky_reply reply, uint32_t number, uint32_t count,
    uint32_t ending)
{
    if (reply.number != number || reply.count != count || reply.ending != ending) {
        printf("c/check.c, line %d: %s\n  replies number %u (%s), count %u, ending %u\n"
               "  and not number %u (%s), count %u, ending %u\n",
               line, call, reply.number, mondzafeky_name(reply.number), reply.count, reply.ending,
               number, mondzafeky_name(number), count, ending);
        exit(1);
    }
}

static int same(const mondzafeky_hall *one, const mondzafeky_hall *other)
{
    return memcmp(one, other, sizeof *one) == 0;
}

/* ---- a reply and its words */

static mondzafeky_reply reply_of(uint32_t number, uint32_t ending)
{
    mondzafeky_reply reply;
    reply.number = number;
    reply.count = 0;
    reply.ending = ending;
    return reply;
}

/* A number that no call gives is neither a refusal nor an end, and is said to be unknown. */
static void check_unknown(uint32_t number)
{
    CHECK(strcmp(mondzafeky_name(number), "unknown") == 0);
    CHECK(strcmp(mondzafeky_sentence(number), "No call returns this number.") == 0);
    CHECK(!mondzafeky_refused(reply_of(number, NOTHING)));
    CHECK(!mondzafeky_ended(reply_of(number, NOTHING)));
}

static void check_words(void)
{
    /* 7 is given no longer */
    static const char *const words[16] = {
        "accepted", "short", "columns", "unsound", "no desk", "taken", "idle", NULL,
        "no entry", "marked", "worn", "occupied", "long", "full", "reversed", "tally full"};
    uint32_t number, other, ending;
    for (number = 0; number <= 15; number++) {
        const char *sentence = mondzafeky_sentence(number);
        const size_t length = strlen(sentence);
        if (words[number] == NULL) {
            check_unknown(number);
            continue;
        }
        CHECK(strcmp(mondzafeky_name(number), words[number]) == 0);
        /* one sentence: one full stop, at its end */
        CHECK(length > 20 && strchr(sentence, '.') == sentence + length - 1);
        CHECK(strcmp(sentence, mondzafeky_sentence(16)) != 0);
        for (other = 0; other < number; other++) {
            CHECK(strcmp(sentence, mondzafeky_sentence(other)) != 0);
        }
        CHECK(mondzafeky_ended(reply_of(number, NOTHING)) == (number == 12 || number == 13));
        CHECK(mondzafeky_refused(reply_of(number, NOTHING))
              == (number != 0 && !mondzafeky_ended(reply_of(number, NOTHING))));
    }
    for (ending = MONDZAFEKY_FROM_FILE; ending <= MONDZAFEKY_UNCHANGED; ending++) {
        CHECK(mondzafeky_ended(reply_of(ACCEPTED, ending)));
        CHECK(!mondzafeky_refused(reply_of(ACCEPTED, ending)));
    }
    CHECK(strstr(mondzafeky_sentence(MONDZAFEKY_WORN), "floor") != NULL);
    CHECK(strstr(mondzafeky_sentence(MONDZAFEKY_WORN), "4,294,967,103") != NULL);
    check_unknown(16);
    check_unknown(UINT32_MAX);
    CHECK(strcmp(MONDZAFEKY_VERSION, "0.1.0") == 0);
}

static void check_columns(void)
{
    const mondzafeky_column is = mondzafeky_is(7), star = mondzafeky_star();
    CHECK(is.mark == 1 && is.value == 7);
    CHECK(star.mark == 0 && star.value == 0);
}

/* ---- a hall that was never opened */

static void check_unopened(mondzafeky_hall *hall)
{
    static mondzafeky_hall all_zero;
    const mondzafeky_column query[1] = {mondzafeky_is(5)};
    memset(hall, 0, sizeof *hall);
    REPLIES(mondzafeky_hall_begin_read(hall, 0, query, 1), MONDZAFEKY_COLUMNS, 0, NOTHING);
    REPLIES(mondzafeky_hall_begin_count(hall, 0, query, 1), MONDZAFEKY_COLUMNS, 0, NOTHING);
    REPLIES(mondzafeky_hall_begin_insert(hall, 0, query, 1), MONDZAFEKY_COLUMNS, 0, NOTHING);
    REPLIES(mondzafeky_hall_begin_delete(hall, 0, query, 1), MONDZAFEKY_COLUMNS, 0, NOTHING);
    /* no columns are as many as an unopened hall has */
    REPLIES(mondzafeky_hall_begin_read(hall, 0, query, 0), MONDZAFEKY_UNSOUND, 0, NOTHING);
    REPLIES(mondzafeky_hall_begin_count(hall, 0, query, 0), MONDZAFEKY_UNSOUND, 0, NOTHING);
    /* but no column is below their number; 2 goes before 14 */
    REPLIES(mondzafeky_hall_begin_read_within(hall, 0, query, 0, 0, 4, 9), MONDZAFEKY_COLUMNS, 0,
            NOTHING);
    REPLIES(mondzafeky_hall_begin_count_within(hall, 0, query, 0, 0, 9, 4), MONDZAFEKY_COLUMNS, 0,
            NOTHING);
    REPLIES(mondzafeky_hall_step(hall, 0), MONDZAFEKY_UNSOUND, 0, NOTHING);
    REPLIES(mondzafeky_run(hall, 0), MONDZAFEKY_UNSOUND, 0, NOTHING);
    REPLIES(mondzafeky_hall_abandon(hall, 0), MONDZAFEKY_UNSOUND, 0, NOTHING);
    REPLIES(mondzafeky_hall_evict_answer(hall, 0), MONDZAFEKY_UNSOUND, 0, NOTHING);
    REPLIES(mondzafeky_hall_evict_node(hall, 0), MONDZAFEKY_UNSOUND, 0, NOTHING);
    REPLIES(mondzafeky_hall_renew(hall), MONDZAFEKY_UNSOUND, 0, NOTHING);
    CHECK(mondzafeky_columns(hall) == 0 && mondzafeky_floor(hall) == 0);
    CHECK(mondzafeky_record(hall, 0) == NULL);
    REPLIES(mondzafeky_hall_open(hall, 0), MONDZAFEKY_COLUMNS, 0, NOTHING);
    REPLIES(mondzafeky_hall_open(hall, 5), MONDZAFEKY_COLUMNS, 0, NOTHING);
    CHECK(same(hall, &all_zero));
}

/* ---- each call over a hall does what the low call does, lent the same memories */

#define MEMORIES(hall) \
    (hall)->table, MONDZAFEKY_TABLE_LEAST, (hall)->nodes, MONDZAFEKY_NODES_LEAST, \
    (hall)->answers, MONDZAFEKY_ANSWERS_LEAST, (hall)->clients, MONDZAFEKY_CLIENTS_LEAST

static mondzafeky_hall low;

/* A call over the hall and the low call beside it: the same reply, the same hall. */
static void agree(
    int line, const mondzafeky_hall *hall, mondzafeky_reply reply, mondzafeky_reply low_reply)
{
    check_reply(line, "the call over a hall", reply, low_reply.number, low_reply.count,
                low_reply.ending);
    if (!same(hall, &low)) {
        printf("c/check.c, line %d: the call over a hall leaves something else\n", line);
        exit(1);
    }
}

#define AGREE(call, low_call) agree(__LINE__, hall, call, low_call)
#define AGREE_STEP(client) \
    AGREE(mondzafeky_hall_step(hall, client), \
          mondzafeky_step(MEMORIES(&low), low.tray, MONDZAFEKY_TRAY_LEAST, client))

/* Ranges, in the hall of check_handed_on: the three numbers could not be exchanged unseen. */
static void check_ranges_handed_on(mondzafeky_hall *hall)
{
    const mondzafeky_column query[3] = {mondzafeky_is(3), mondzafeky_star(), mondzafeky_is(9)};
    const uint32_t numbers[6] = {1, 3, 0, 0, 1, 9};
    AGREE(mondzafeky_hall_begin_read_within(hall, 8, query, 3, 1, 4, 9),
          mondzafeky_begin_read_within(MEMORIES(&low), 8, numbers, 6, 1, 4, 9));
    AGREE(mondzafeky_hall_begin_count_within(hall, 9, query, 3, 1, 4, 9),
          mondzafeky_begin_count_within(MEMORIES(&low), 9, numbers, 6, 1, 4, 9));
    /* docs/LAYOUT.md: marks of columns 0 and 2, 64 for a range in column 1, 16 for a count */
    CHECK(hall->clients[8 + 8 * 157 + 5] == 69 && hall->clients[8 + 9 * 157 + 5] == 85);
    CHECK(hall->clients[8 + 8 * 157 + 10] == 4 && hall->clients[8 + 8 * 157 + 11] == 9);
    CHECK(hall->clients[8 + 9 * 157 + 10] == 4 && hall->clients[8 + 9 * 157 + 11] == 9);
    REPLIES(mondzafeky_run(hall, 8), ACCEPTED, 1, MONDZAFEKY_FROM_TABLE);
    REPLIES(mondzafeky_run(hall, 9), ACCEPTED, 1, MONDZAFEKY_FROM_TABLE);
    REPLIES(mondzafeky_run(&low, 8), ACCEPTED, 1, MONDZAFEKY_FROM_TABLE);
    REPLIES(mondzafeky_run(&low, 9), ACCEPTED, 1, MONDZAFEKY_FROM_TABLE);
    CHECK(same(hall, &low));
}

/*
 * Abandoning, putting out and renewing in that hall: a delete at desk 2 has made one step, one at
 * desk 3 its marks, its table step and two raises.
 */
static void check_upkeep_handed_on(mondzafeky_hall *hall)
{
    const mondzafeky_column query[3] = {mondzafeky_is(3), mondzafeky_star(), mondzafeky_is(9)};
    const uint32_t numbers[6] = {1, 3, 0, 0, 1, 9};
    int i;
    AGREE(mondzafeky_hall_begin_delete(hall, 2, query, 3),
          mondzafeky_begin_delete(MEMORIES(&low), 2, numbers, 6));
    AGREE(mondzafeky_hall_begin_delete(hall, 3, query, 3),
          mondzafeky_begin_delete(MEMORIES(&low), 3, numbers, 6));
    AGREE_STEP(2);
    for (i = 0; i < 11; i++) {
        AGREE_STEP(3);
    }
    AGREE(mondzafeky_hall_abandon(hall, 2), mondzafeky_abandon(MEMORIES(&low), 2));
    AGREE(mondzafeky_hall_abandon(hall, 3), mondzafeky_abandon(MEMORIES(&low), 3));
    AGREE(mondzafeky_hall_evict_answer(hall, 0), mondzafeky_evict_answer(MEMORIES(&low), 0));
    AGREE(mondzafeky_hall_evict_node(hall, 1), mondzafeky_evict_node(MEMORIES(&low), 1));
    AGREE(mondzafeky_hall_renew(hall), mondzafeky_renew(MEMORIES(&low)));
}

static void check_handed_on(mondzafeky_hall *hall)
{
    /* three columns, two of them named: mark and value could not be exchanged unseen */
    const mondzafeky_column query[3] = {mondzafeky_is(3), mondzafeky_star(), mondzafeky_is(9)};
    const mondzafeky_column record[3] = {mondzafeky_is(3), mondzafeky_is(4), mondzafeky_is(9)};
    const uint32_t query_numbers[6] = {1, 3, 0, 0, 1, 9};
    const uint32_t record_numbers[6] = {1, 3, 1, 4, 1, 9};
    int i;
    memset(hall, 255, sizeof *hall);
    memset(&low, 255, sizeof low);
    AGREE(mondzafeky_hall_open(hall, 3), mondzafeky_open(MEMORIES(&low), 3));
    AGREE(mondzafeky_hall_begin_insert(hall, 11, record, 3),
          mondzafeky_begin_insert(MEMORIES(&low), 11, record_numbers, 6));
    AGREE(mondzafeky_hall_begin_read(hall, 4, query, 3),
          mondzafeky_begin_read(MEMORIES(&low), 4, query_numbers, 6));
    AGREE(mondzafeky_hall_begin_read(hall, 5, query, 2),
          mondzafeky_begin_read(MEMORIES(&low), 5, query_numbers, 4));
    AGREE(mondzafeky_hall_begin_count(hall, 6, query, 3),
          mondzafeky_begin_count(MEMORIES(&low), 6, query_numbers, 6));
    AGREE(mondzafeky_hall_begin_count(hall, 7, query, 2),
          mondzafeky_begin_count(MEMORIES(&low), 7, query_numbers, 4));
    for (i = 0; i < 18; i++) {
        AGREE_STEP(11);
        AGREE_STEP(4);
        AGREE_STEP(6);
    }
    check_ranges_handed_on(hall);
    AGREE(mondzafeky_hall_begin_read(hall, 0, query, 3),
          mondzafeky_begin_read(MEMORIES(&low), 0, query_numbers, 6));
    for (i = 0; i < 8; i++) {
        AGREE_STEP(0);
    }
    CHECK(mondzafeky_records(hall) == 1);
    check_upkeep_handed_on(hall);
    CHECK(mondzafeky_records(hall) == 0);
}

/* ---- a hall of two columns: ends, refusals, what is inside */

static mondzafeky_reply write_of(
    mondzafeky_hall *hall, uint32_t client, int inserts, uint32_t first, uint32_t second)
{
    const mondzafeky_column record[2] = {mondzafeky_is(first), mondzafeky_is(second)};
    const mondzafeky_reply begun = inserts
        ? mondzafeky_hall_begin_insert(hall, client, record, 2)
        : mondzafeky_hall_begin_delete(hall, client, record, 2);
    return mondzafeky_refused(begun) ? begun : mondzafeky_run(hall, client);
}

static mondzafeky_reply begin_read(mondzafeky_hall *hall, uint32_t client, uint32_t first)
{
    const mondzafeky_column query[2] = {mondzafeky_is(first), mondzafeky_star()};
    return mondzafeky_hall_begin_read(hall, client, query, 2);
}

static mondzafeky_reply read_of(mondzafeky_hall *hall, uint32_t client, uint32_t first)
{
    const mondzafeky_reply begun = begin_read(hall, client, first);
    return mondzafeky_refused(begun) ? begun : mondzafeky_run(hall, client);
}

static mondzafeky_reply begin_count(mondzafeky_hall *hall, uint32_t client, uint32_t first)
{
    const mondzafeky_column query[2] = {mondzafeky_is(first), mondzafeky_star()};
    return mondzafeky_hall_begin_count(hall, client, query, 2);
}

static void steps(mondzafeky_hall *hall, uint32_t client, int count)
{
    for (; count > 0; count--) {
        REPLIES(mondzafeky_hall_step(hall, client), ACCEPTED, 0, NOTHING);
    }
}

/* Every way in which a run ends: the four endings, 12, 13, refusals. */
static void check_ends(mondzafeky_hall *hall)
{
    const mondzafeky_column all[2] = {mondzafeky_star(), mondzafeky_star()};
    uint32_t i;
    REPLIES(mondzafeky_hall_open(hall, 2), ACCEPTED, 0, NOTHING);
    CHECK(mondzafeky_columns(hall) == 2);
    REPLIES(write_of(hall, 0, 1, 3, 41), ACCEPTED, 0, MONDZAFEKY_CHANGED);
    REPLIES(write_of(hall, 0, 1, 3, 40), ACCEPTED, 0, MONDZAFEKY_CHANGED);
    REPLIES(write_of(hall, 1, 1, 3, 40), ACCEPTED, 0, MONDZAFEKY_UNCHANGED);
    REPLIES(read_of(hall, 11, 3), ACCEPTED, 2, MONDZAFEKY_FROM_TABLE);
    REPLIES(read_of(hall, 2, 3), ACCEPTED, 2, MONDZAFEKY_FROM_FILE);
    CHECK(mondzafeky_record(hall, 0)[0] == 3 && mondzafeky_record(hall, 0)[1] == 40);
    CHECK(mondzafeky_record(hall, 1)[0] == 3 && mondzafeky_record(hall, 1)[1] == 41);
    CHECK(mondzafeky_record(hall, 31) == hall->tray + 62);
    CHECK(mondzafeky_record(hall, 32) == NULL);
    REPLIES(write_of(hall, 0, 0, 3, 40), ACCEPTED, 0, MONDZAFEKY_CHANGED);
    REPLIES(write_of(hall, 0, 0, 3, 40), ACCEPTED, 0, MONDZAFEKY_UNCHANGED);
    REPLIES(mondzafeky_run(hall, 0), MONDZAFEKY_IDLE, 0, NOTHING);
    REPLIES(mondzafeky_run(hall, 12), MONDZAFEKY_NO_CLIENT, 0, NOTHING);
    REPLIES(mondzafeky_run(hall, UINT32_MAX), MONDZAFEKY_NO_CLIENT, 0, NOTHING);
    for (i = 0; i < 32; i++) {
        REPLIES(write_of(hall, 0, 1, 7, i), ACCEPTED, 0, MONDZAFEKY_CHANGED);
    }
    REPLIES(read_of(hall, 1, 7), ACCEPTED, 32, MONDZAFEKY_FROM_TABLE);
    CHECK(mondzafeky_record(hall, 31)[1] == 31);
    REPLIES(mondzafeky_hall_begin_read(hall, 1, all, 2), ACCEPTED, 0, NOTHING);
    REPLIES(mondzafeky_run(hall, 1), MONDZAFEKY_LONG, 0, NOTHING);
    CHECK(mondzafeky_work(hall, 1) == 0);
    for (i = 33; i < MONDZAFEKY_RECORDS; i++) {
        REPLIES(write_of(hall, 0, 1, 8, i), ACCEPTED, 0, MONDZAFEKY_CHANGED);
    }
    CHECK(mondzafeky_records(hall) == MONDZAFEKY_RECORDS);
    REPLIES(write_of(hall, 0, 1, 9, 1), MONDZAFEKY_FULL, 0, NOTHING);
    CHECK(mondzafeky_work(hall, 0) == 0);
    REPLIES(write_of(hall, 0, 1, 7, 0), ACCEPTED, 0, MONDZAFEKY_UNCHANGED);
}

/* Desk 10 reads what has this value in the first column, and lowest to highest in the second. */
static mondzafeky_reply read_within(
    mondzafeky_hall *hall, uint32_t first, uint32_t lowest, uint32_t highest)
{
    const mondzafeky_column query[2] = {mondzafeky_is(first), mondzafeky_star()};
    REPLIES(mondzafeky_hall_begin_read_within(hall, 10, query, 2, 1, lowest, highest), ACCEPTED, 0,
            NOTHING);
    CHECK(mondzafeky_work(hall, 10) == 1 && !mondzafeky_counts(hall, 10));
    return mondzafeky_run(hall, 10);
}

/* Desk 10 counts the same, and leaves the tray as it was. */
static mondzafeky_reply count_within(
    mondzafeky_hall *hall, uint32_t first, uint32_t lowest, uint32_t highest)
{
    const mondzafeky_column query[2] = {mondzafeky_is(first), mondzafeky_star()};
    static uint32_t tray[MONDZAFEKY_TRAY_LEAST];
    mondzafeky_reply reply;
    memcpy(tray, hall->tray, sizeof tray);
    REPLIES(mondzafeky_hall_begin_count_within(hall, 10, query, 2, 1, lowest, highest), ACCEPTED,
            0, NOTHING);
    CHECK(mondzafeky_work(hall, 10) == 1 && mondzafeky_counts(hall, 10));
    reply = mondzafeky_run(hall, 10);
    CHECK(memcmp(hall->tray, tray, sizeof tray) == 0);
    return reply;
}

/*
 * Ranges in the hall that check_ends leaves: the records are (3, 41), (7, 0 to 31) and (8, 33 to
 * 2,047).
 */
static void check_ranges(mondzafeky_hall *hall)
{
    REPLIES(mondzafeky_hall_renew(hall), ACCEPTED, 0, NOTHING);
    REPLIES(read_within(hall, 7, 4, 9), ACCEPTED, 6, MONDZAFEKY_FROM_TABLE);
    CHECK(mondzafeky_record(hall, 0)[1] == 4 && mondzafeky_record(hall, 5)[1] == 9);
    REPLIES(read_within(hall, 7, 4, 9), ACCEPTED, 6, MONDZAFEKY_FROM_FILE);
    REPLIES(count_within(hall, 7, 4, 9), ACCEPTED, 6, MONDZAFEKY_FROM_TABLE);
    REPLIES(count_within(hall, 7, 4, 9), ACCEPTED, 6, MONDZAFEKY_FROM_FILE);
    /* another range, in the other column too, is another question */
    REPLIES(read_within(hall, 7, 4, 8), ACCEPTED, 5, MONDZAFEKY_FROM_TABLE);
    REPLIES(read_within(hall, 7, 5, 9), ACCEPTED, 5, MONDZAFEKY_FROM_TABLE);
    REPLIES(read_within(hall, 8, 4, 9), ACCEPTED, 0, MONDZAFEKY_FROM_TABLE);
    /* on both sides of 32 records, and up to the largest value */
    REPLIES(read_within(hall, 8, 33, 64), ACCEPTED, 32, MONDZAFEKY_FROM_TABLE);
    REPLIES(read_within(hall, 8, 33, 65), MONDZAFEKY_LONG, 0, NOTHING);
    REPLIES(count_within(hall, 8, 33, 65), ACCEPTED, 33, MONDZAFEKY_FROM_TABLE);
    REPLIES(count_within(hall, 8, 2047, UINT32_MAX), ACCEPTED, 1, MONDZAFEKY_FROM_TABLE);
    REPLIES(count_within(hall, 8, 2048, UINT32_MAX), ACCEPTED, 0, MONDZAFEKY_FROM_TABLE);
    /* a write outside the range that meets the query spoils what is filed, and no more */
    REPLIES(write_of(hall, 0, 0, 7, 20), ACCEPTED, 0, MONDZAFEKY_CHANGED);
    REPLIES(read_within(hall, 7, 4, 9), ACCEPTED, 6, MONDZAFEKY_FROM_TABLE);
    REPLIES(write_of(hall, 0, 1, 7, 20), ACCEPTED, 0, MONDZAFEKY_CHANGED);
    REPLIES(write_of(hall, 0, 0, 8, 34), ACCEPTED, 0, MONDZAFEKY_CHANGED);
    REPLIES(count_within(hall, 8, 33, 65), ACCEPTED, 32, MONDZAFEKY_FROM_TABLE);
    REPLIES(write_of(hall, 0, 1, 8, 34), ACCEPTED, 0, MONDZAFEKY_CHANGED);
}

/*
 * The same hall: a range over all values is not the plain read, and leaves out (7, 0), which has no
 * measurement there; one with equal ends is not the named value; neither serves the other.
 */
static void check_ranges_beside_plain(mondzafeky_hall *hall)
{
    const mondzafeky_column all[2] = {mondzafeky_star(), mondzafeky_star()};
    const mondzafeky_column five[2] = {mondzafeky_is(7), mondzafeky_is(5)};
    REPLIES(mondzafeky_hall_renew(hall), ACCEPTED, 0, NOTHING);
    REPLIES(read_of(hall, 1, 7), ACCEPTED, 32, MONDZAFEKY_FROM_TABLE);
    REPLIES(read_within(hall, 7, 0, UINT32_MAX), ACCEPTED, 31, MONDZAFEKY_FROM_TABLE);
    REPLIES(mondzafeky_hall_begin_read(hall, 1, five, 2), ACCEPTED, 0, NOTHING);
    REPLIES(mondzafeky_run(hall, 1), ACCEPTED, 1, MONDZAFEKY_FROM_TABLE);
    REPLIES(read_within(hall, 7, 5, 5), ACCEPTED, 1, MONDZAFEKY_FROM_TABLE);
    CHECK(mondzafeky_record(hall, 0)[0] == 7 && mondzafeky_record(hall, 0)[1] == 5);
    CHECK(mondzafeky_answers(hall) == 4);
    REPLIES(read_of(hall, 1, 7), ACCEPTED, 32, MONDZAFEKY_FROM_FILE);
    REPLIES(read_within(hall, 7, 5, 5), ACCEPTED, 1, MONDZAFEKY_FROM_FILE);
    /* benches 3 to 7, no column named: one look, the fetch, the table, the filing */
    REPLIES(mondzafeky_hall_begin_count_within(hall, 1, all, 2, 0, 3, 7), ACCEPTED, 0, NOTHING);
    steps(hall, 1, 3);
    REPLIES(mondzafeky_hall_step(hall, 1), ACCEPTED, 33, MONDZAFEKY_FROM_TABLE);
    REPLIES(mondzafeky_hall_begin_read_within(hall, 1, all, 2, 0, 3, 6), ACCEPTED, 0, NOTHING);
    REPLIES(mondzafeky_run(hall, 1), ACCEPTED, 1, MONDZAFEKY_FROM_TABLE);
    CHECK(mondzafeky_record(hall, 0)[0] == 3 && mondzafeky_record(hall, 0)[1] == 41);
}

/* A whole read at desk 1 of (7, second), all named. */
static mondzafeky_reply read_named(mondzafeky_hall *hall, uint32_t second)
{
    const mondzafeky_column query[2] = {mondzafeky_is(7), mondzafeky_is(second)};
    REPLIES(mondzafeky_hall_begin_read(hall, 1, query, 2), ACCEPTED, 0, NOTHING);
    return mondzafeky_run(hall, 1);
}

/*
 * The same hall, which has (7, 0) and (7, 1): 0 means that nothing was measured. A star finds it; a
 * name does not, nor does a range; a delete naming it takes out nothing; inserted again, it is there.
 */
static void check_zeros(mondzafeky_hall *hall)
{
    REPLIES(mondzafeky_hall_renew(hall), ACCEPTED, 0, NOTHING);
    REPLIES(read_of(hall, 1, 7), ACCEPTED, 32, MONDZAFEKY_FROM_TABLE);
    CHECK(mondzafeky_record(hall, 0)[1] == 0 && mondzafeky_record(hall, 1)[1] == 1);
    REPLIES(read_named(hall, 0), ACCEPTED, 0, MONDZAFEKY_FROM_TABLE);
    REPLIES(read_named(hall, 0), ACCEPTED, 0, MONDZAFEKY_FROM_FILE);
    REPLIES(read_named(hall, 1), ACCEPTED, 1, MONDZAFEKY_FROM_TABLE);
    REPLIES(read_within(hall, 7, 0, 0), ACCEPTED, 0, MONDZAFEKY_FROM_TABLE);
    REPLIES(count_within(hall, 7, 0, 1), ACCEPTED, 1, MONDZAFEKY_FROM_TABLE);
    REPLIES(read_within(hall, 0, 0, UINT32_MAX), ACCEPTED, 0, MONDZAFEKY_FROM_TABLE);
    REPLIES(write_of(hall, 0, 1, 7, 0), ACCEPTED, 0, MONDZAFEKY_UNCHANGED);
    REPLIES(write_of(hall, 0, 0, 7, 0), ACCEPTED, 0, MONDZAFEKY_UNCHANGED);
    /* neither has changed anything, so what was filed is of use; after the next it is not */
    REPLIES(read_named(hall, 0), ACCEPTED, 0, MONDZAFEKY_FROM_FILE);
    REPLIES(read_of(hall, 1, 7), ACCEPTED, 32, MONDZAFEKY_FROM_FILE);
    REPLIES(write_of(hall, 0, 0, 7, 1), ACCEPTED, 0, MONDZAFEKY_CHANGED);
    REPLIES(read_of(hall, 1, 7), ACCEPTED, 31, MONDZAFEKY_FROM_TABLE);
    REPLIES(write_of(hall, 0, 1, 7, 1), ACCEPTED, 0, MONDZAFEKY_CHANGED);
}

/* A whole count at desk 9, which makes so many steps and leaves the tray as it was. */
static mondzafeky_reply count_of(
    mondzafeky_hall *hall, const mondzafeky_column *query, int made)
{
    static uint32_t tray[MONDZAFEKY_TRAY_LEAST];
    mondzafeky_reply reply;
    memset(hall->tray, 9, sizeof tray);
    memset(tray, 9, sizeof tray);
    REPLIES(mondzafeky_hall_begin_count(hall, 9, query, 2), ACCEPTED, 0, NOTHING);
    CHECK(mondzafeky_counts(hall, 9));
    steps(hall, 9, made - 1);
    reply = mondzafeky_run(hall, 9);
    CHECK(mondzafeky_ended(reply) && mondzafeky_work(hall, 9) == 0);
    CHECK(!mondzafeky_counts(hall, 9) && memcmp(hall->tray, tray, sizeof tray) == 0);
    return reply;
}

/* Counts in the hall that check_ends leaves: 1 record of 3, 32 of 7, 2,015 of 8. */
static void check_counts(mondzafeky_hall *hall)
{
    const mondzafeky_column all[2] = {mondzafeky_star(), mondzafeky_star()};
    const mondzafeky_column eight[2] = {mondzafeky_is(8), mondzafeky_star()};
    const mondzafeky_column none[2] = {mondzafeky_is(9), mondzafeky_is(9)};
    REPLIES(mondzafeky_hall_renew(hall), ACCEPTED, 0, NOTHING);
    REPLIES(count_of(hall, all, 4), ACCEPTED, 2048, MONDZAFEKY_FROM_TABLE);
    REPLIES(count_of(hall, all, 2), ACCEPTED, 2048, MONDZAFEKY_FROM_FILE);
    REPLIES(count_of(hall, eight, 5), ACCEPTED, 2015, MONDZAFEKY_FROM_TABLE);
    REPLIES(count_of(hall, none, 7), ACCEPTED, 0, MONDZAFEKY_FROM_TABLE);
    REPLIES(count_of(hall, none, 5), ACCEPTED, 0, MONDZAFEKY_FROM_FILE);
    /* a filed count is no list, and a filed list no count */
    REPLIES(read_of(hall, 1, 8), MONDZAFEKY_LONG, 0, NOTHING);
    REPLIES(read_of(hall, 1, 7), ACCEPTED, 32, MONDZAFEKY_FROM_TABLE);
    REPLIES(begin_count(hall, 1, 7), ACCEPTED, 0, NOTHING);
    REPLIES(mondzafeky_run(hall, 1), ACCEPTED, 32, MONDZAFEKY_FROM_TABLE);
    CHECK(mondzafeky_answers(hall) == 5);
    /* a look that saw a mark: one step fewer, and nothing is filed */
    REPLIES(mondzafeky_hall_begin_delete(hall, 0, eight, 2), ACCEPTED, 0, NOTHING);
    steps(hall, 0, 5);
    REPLIES(count_of(hall, all, 3), ACCEPTED, 33, MONDZAFEKY_FROM_TABLE);
    REPLIES(mondzafeky_run(hall, 0), ACCEPTED, 0, MONDZAFEKY_CHANGED);
    REPLIES(count_of(hall, all, 4), ACCEPTED, 33, MONDZAFEKY_FROM_TABLE);
    CHECK(mondzafeky_answers(hall) == 5);
}

/* Whether no node has a mark: docs/LAYOUT.md says where they stand. */
static int is_unmarked(const mondzafeky_hall *hall)
{
    uint32_t place;
    for (place = 0; place < mondzafeky_nodes(hall); place++) {
        if (hall->nodes[8u + 8u * place + 5u] != 0) {
            return 0;
        }
    }
    return 1;
}

/*
 * A write of (first, second) is abandoned at desk 6 after each number of its nine steps: given up
 * up to its table step, the fifth with four marks before it; ended so after it, as by its own last
 * step. A read of what it writes was filed before: the next one is answered from file unless the
 * write has changed the table, and the one after that in any case.
 */
static void check_abandoned(
    mondzafeky_hall *hall, int inserts, uint32_t first, uint32_t second, uint32_t number,
    uint32_t ending)
{
    const mondzafeky_column record[2] = {mondzafeky_is(first), mondzafeky_is(second)};
    static mondzafeky_hall before, stepped;
    int made;
    before = *hall;
    for (made = 0; made < 9; made++) {
        *hall = before;
        CHECK(mondzafeky_ended(read_of(hall, 7, first)));
        REPLIES(inserts ? mondzafeky_hall_begin_insert(hall, 6, record, 2)
                        : mondzafeky_hall_begin_delete(hall, 6, record, 2), ACCEPTED, 0, NOTHING);
        steps(hall, 6, made);
        stepped = *hall;
        if (made <= 4) {
            REPLIES(mondzafeky_hall_abandon(hall, 6), ACCEPTED, 0, NOTHING);
            CHECK(memcmp(hall->table, before.table, sizeof before.table) == 0);
        } else {
            REPLIES(mondzafeky_hall_abandon(hall, 6), number, 0, ending);
            REPLIES(mondzafeky_run(&stepped, 6), number, 0, ending);
            CHECK(same(hall, &stepped));
        }
        CHECK(is_unmarked(hall) && mondzafeky_work(hall, 6) == 0);
        REPLIES(mondzafeky_hall_abandon(hall, 6), MONDZAFEKY_IDLE, 0, NOTHING);
        CHECK(read_of(hall, 7, first).ending
              == (made > 4 && ending == MONDZAFEKY_CHANGED ? MONDZAFEKY_FROM_TABLE
                                                           : MONDZAFEKY_FROM_FILE));
        CHECK(read_of(hall, 7, first).ending == MONDZAFEKY_FROM_FILE);
    }
    *hall = before;
}

/*
 * Abandonings in the hall that check_ends leaves, which is full: the records are (3, 41), (7, 0 to
 * 31) and (8, 33 to 2,047).
 */
static void check_abandonings(mondzafeky_hall *hall)
{
    check_abandoned(hall, 1, 9, 1, MONDZAFEKY_FULL, NOTHING);
    check_abandoned(hall, 1, 3, 41, ACCEPTED, MONDZAFEKY_UNCHANGED);
    check_abandoned(hall, 0, 3, 40, ACCEPTED, MONDZAFEKY_UNCHANGED);
    check_abandoned(hall, 0, 3, 41, ACCEPTED, MONDZAFEKY_CHANGED);
    REPLIES(write_of(hall, 0, 0, 7, 31), ACCEPTED, 0, MONDZAFEKY_CHANGED);
    check_abandoned(hall, 1, 7, 31, ACCEPTED, MONDZAFEKY_CHANGED);
    REPLIES(write_of(hall, 0, 1, 7, 31), ACCEPTED, 0, MONDZAFEKY_CHANGED);
}

/* Those of a count, at the hall of check_refusals, in which desk 0 is busy. */
static void check_count_refusals(mondzafeky_hall *hall)
{
    static const uint32_t numbers[4] = {1, 1, 0, 0};
    const mondzafeky_column query[2] = {mondzafeky_is(1), mondzafeky_star()};
    REPLIES(mondzafeky_begin_count(hall->table, MONDZAFEKY_TABLE_LEAST, hall->nodes,
                                   MONDZAFEKY_NODES_LEAST, hall->answers,
                                   MONDZAFEKY_ANSWERS_LEAST - 1, hall->clients,
                                   MONDZAFEKY_CLIENTS_LEAST, 2, numbers, 4),
            MONDZAFEKY_SHORT, 0, NOTHING);
    REPLIES(mondzafeky_hall_begin_count(hall, 2, query, 1), MONDZAFEKY_COLUMNS, 0, NOTHING);
    REPLIES(begin_count(hall, 12, 1), MONDZAFEKY_NO_CLIENT, 0, NOTHING);
    REPLIES(begin_count(hall, 0, 1), MONDZAFEKY_TAKEN, 0, NOTHING);
    /* its step is lent a tray that is too short; then it is given up */
    REPLIES(begin_count(hall, 2, 1), ACCEPTED, 0, NOTHING);
    REPLIES(mondzafeky_step(MEMORIES(hall), hall->tray, MONDZAFEKY_TRAY_LEAST - 1, 2),
            MONDZAFEKY_SHORT, 0, NOTHING);
    REPLIES(mondzafeky_hall_abandon(hall, 2), ACCEPTED, 0, NOTHING);
}

/* Fails unless both begins with this range reply with this number. */
#define WITHIN_REFUSED(client, query, column, lowest, highest, number) \
    do { \
        REPLIES(mondzafeky_hall_begin_read_within( \
                    hall, client, query, 2, column, lowest, highest), number, 0, NOTHING); \
        REPLIES(mondzafeky_hall_begin_count_within( \
                    hall, client, query, 2, column, lowest, highest), number, 0, NOTHING); \
    } while (0)

/* Those of ranges, at the hall of check_refusals, in which desk 0 is busy. */
static void check_range_refusals(mondzafeky_hall *hall)
{
    static const uint32_t numbers[4] = {1, 1, 0, 0};
    const mondzafeky_column query[2] = {mondzafeky_is(1), mondzafeky_star()};
    const mondzafeky_column wrong[2] = {mondzafeky_is(1), {0, 1}};
    REPLIES(mondzafeky_begin_read_within(hall->table, MONDZAFEKY_TABLE_LEAST, hall->nodes,
                                         MONDZAFEKY_NODES_LEAST - 1, hall->answers,
                                         MONDZAFEKY_ANSWERS_LEAST, hall->clients,
                                         MONDZAFEKY_CLIENTS_LEAST, 2, numbers, 4, 1, 9, 4),
            MONDZAFEKY_SHORT, 0, NOTHING);
    REPLIES(mondzafeky_hall_begin_count_within(hall, 2, query, 1, 0, 4, 9), MONDZAFEKY_COLUMNS, 0,
            NOTHING);
    /* a column that is named too, one past the last, a star with a value; reversed or not */
    WITHIN_REFUSED(2, query, 0, 4, 9, MONDZAFEKY_COLUMNS);
    WITHIN_REFUSED(2, query, 0, 9, 4, MONDZAFEKY_COLUMNS);
    WITHIN_REFUSED(2, query, 2, 4, 9, MONDZAFEKY_COLUMNS);
    WITHIN_REFUSED(2, query, UINT32_MAX, 9, 4, MONDZAFEKY_COLUMNS);
    WITHIN_REFUSED(2, wrong, 1, 9, 4, MONDZAFEKY_COLUMNS);
    /* 14 goes before 4 and 5 */
    WITHIN_REFUSED(2, query, 1, 9, 8, MONDZAFEKY_REVERSED);
    WITHIN_REFUSED(2, query, 1, UINT32_MAX, 0, MONDZAFEKY_REVERSED);
    WITHIN_REFUSED(12, query, 1, 9, 4, MONDZAFEKY_REVERSED);
    WITHIN_REFUSED(0, query, 1, 9, 4, MONDZAFEKY_REVERSED);
    WITHIN_REFUSED(12, query, 1, 9, 9, MONDZAFEKY_NO_CLIENT);
    WITHIN_REFUSED(0, query, 1, 4, 9, MONDZAFEKY_TAKEN);
}

/* 3 and 10, at the hall of check_refusals; desk 1 has been at the table, desk 0 has not. */
static void check_unsound_and_worn(mondzafeky_hall *hall)
{
    static mondzafeky_hall before;
    /* the nodes are gone, by something else than a call: the first raise of a run finds none */
    hall->nodes[1] = 0;
    before = *hall;
    REPLIES(mondzafeky_run(hall, 1), MONDZAFEKY_UNSOUND, 0, NOTHING);
    REPLIES(mondzafeky_hall_abandon(hall, 1), MONDZAFEKY_UNSOUND, 0, NOTHING);
    REPLIES(mondzafeky_hall_abandon(hall, 0), MONDZAFEKY_UNSOUND, 0, NOTHING);
    CHECK(same(hall, &before));
    /* desk 0 still makes its last mark, at a node added, and its table step; then it is refused */
    REPLIES(mondzafeky_run(hall, 0), MONDZAFEKY_UNSOUND, 0, NOTHING);
    CHECK(mondzafeky_steps(hall, 0) == 5);
    REPLIES(mondzafeky_hall_open(hall, 2), ACCEPTED, 0, NOTHING);
    hall->nodes[0] = 4294967103u;
    REPLIES(write_of(hall, 0, 1, 1, 1), ACCEPTED, 0, MONDZAFEKY_CHANGED);
    REPLIES(write_of(hall, 0, 1, 1, 2), MONDZAFEKY_WORN, 0, NOTHING);
    REPLIES(mondzafeky_hall_renew(hall), ACCEPTED, 0, NOTHING);
    REPLIES(write_of(hall, 0, 1, 1, 2), ACCEPTED, 0, MONDZAFEKY_CHANGED);
}

/* Every refusal, the hall as it was after each. */
static void check_refusals(mondzafeky_hall *hall)
{
    static mondzafeky_hall before;
    mondzafeky_column query[2];
    REPLIES(mondzafeky_hall_open(hall, 2), ACCEPTED, 0, NOTHING);
    /* a write before its table step, one after it, a filed answer, marked nodes from place 2 on */
    REPLIES(read_of(hall, 5, 1), ACCEPTED, 0, MONDZAFEKY_FROM_TABLE);
    query[0] = mondzafeky_is(2);
    query[1] = mondzafeky_is(3);
    REPLIES(mondzafeky_hall_begin_insert(hall, 0, query, 2), ACCEPTED, 0, NOTHING);
    REPLIES(mondzafeky_hall_begin_insert(hall, 1, query, 2), ACCEPTED, 0, NOTHING);
    steps(hall, 0, 3);
    steps(hall, 1, 5);
    before = *hall;
    REPLIES(mondzafeky_open(hall->table, MONDZAFEKY_TABLE_LEAST - 1, hall->nodes,
                            MONDZAFEKY_NODES_LEAST, hall->answers, MONDZAFEKY_ANSWERS_LEAST,
                            hall->clients, MONDZAFEKY_CLIENTS_LEAST, 2),
            MONDZAFEKY_SHORT, 0, NOTHING);
    REPLIES(mondzafeky_hall_begin_read(hall, 2, query, 1), MONDZAFEKY_COLUMNS, 0, NOTHING);
    REPLIES(begin_read(hall, 12, 1), MONDZAFEKY_NO_CLIENT, 0, NOTHING);
    REPLIES(begin_read(hall, 0, 1), MONDZAFEKY_TAKEN, 0, NOTHING);
    check_count_refusals(hall);
    check_range_refusals(hall);
    REPLIES(mondzafeky_hall_step(hall, 2), MONDZAFEKY_IDLE, 0, NOTHING);
    REPLIES(mondzafeky_hall_abandon(hall, 2), MONDZAFEKY_IDLE, 0, NOTHING);
    REPLIES(mondzafeky_hall_evict_answer(hall, 1), MONDZAFEKY_NO_ENTRY, 0, NOTHING);
    REPLIES(mondzafeky_hall_evict_node(hall, 6), MONDZAFEKY_NO_ENTRY, 0, NOTHING);
    REPLIES(mondzafeky_hall_evict_node(hall, 2), MONDZAFEKY_PENDING, 0, NOTHING);
    REPLIES(mondzafeky_hall_renew(hall), MONDZAFEKY_OCCUPIED, 0, NOTHING);
    query[1] = mondzafeky_star();
    REPLIES(mondzafeky_hall_begin_insert(hall, 2, query, 2), MONDZAFEKY_COLUMNS, 0, NOTHING);
    query[1].value = 1;
    REPLIES(mondzafeky_hall_begin_delete(hall, 2, query, 2), MONDZAFEKY_COLUMNS, 0, NOTHING);
    REPLIES(mondzafeky_hall_begin_count(hall, 2, query, 2), MONDZAFEKY_COLUMNS, 0, NOTHING);
    CHECK(same(hall, &before));
    check_unsound_and_worn(hall);
}

/* What is under way at the desks of check_inside: a read, an insert, a count, a delete. */
static void check_desks(mondzafeky_hall *hall)
{
    const mondzafeky_column record[2] = {mondzafeky_is(1), mondzafeky_is(1)};
    uint32_t client;
    REPLIES(begin_read(hall, 1, 1), ACCEPTED, 0, NOTHING);
    steps(hall, 1, 1);
    REPLIES(mondzafeky_hall_begin_insert(hall, 4, record, 2), ACCEPTED, 0, NOTHING);
    steps(hall, 4, 4);
    REPLIES(mondzafeky_hall_begin_delete(hall, 11, record, 2), ACCEPTED, 0, NOTHING);
    steps(hall, 11, 7);
    REPLIES(begin_count(hall, 8, 5), ACCEPTED, 0, NOTHING);
    steps(hall, 8, 2);
    for (client = 0; client < 14; client++) {
        const uint32_t read = client == 1 || client == 8 ? 1 : 0;
        const uint32_t work = client == 4 ? 2 : client == 11 ? 3 : read;
        const uint32_t made = client == 8 ? 2 : client == 4 ? 4 : client == 11 ? 7 : read;
        CHECK(mondzafeky_work(hall, client) == work);
        CHECK(mondzafeky_steps(hall, client) == made);
        CHECK(mondzafeky_counts(hall, client) == (client == 8));
    }
    CHECK(mondzafeky_work(hall, UINT32_MAX) == 0 && mondzafeky_steps(hall, UINT32_MAX) == 0);
    CHECK(mondzafeky_counts(hall, UINT32_MAX) == 0);
    REPLIES(mondzafeky_hall_abandon(hall, 1), ACCEPTED, 0, NOTHING);
    CHECK(mondzafeky_work(hall, 1) == 0 && mondzafeky_steps(hall, 1) == 0);
    CHECK(mondzafeky_records(hall) == 2);
}

/* What is inside after a few calls, each number another. */
static void check_inside(mondzafeky_hall *hall)
{
    REPLIES(mondzafeky_hall_open(hall, 2), ACCEPTED, 0, NOTHING);
    CHECK(mondzafeky_columns(hall) == 2 && mondzafeky_floor(hall) == 1);
    CHECK(mondzafeky_records(hall) == 0 && mondzafeky_answers(hall) == 0);
    CHECK(mondzafeky_nodes(hall) == 0);
    REPLIES(write_of(hall, 0, 1, 1, 1), ACCEPTED, 0, MONDZAFEKY_CHANGED);
    REPLIES(write_of(hall, 0, 1, 1, 2), ACCEPTED, 0, MONDZAFEKY_CHANGED);
    REPLIES(write_of(hall, 0, 1, 1, 3), ACCEPTED, 0, MONDZAFEKY_CHANGED);
    REPLIES(read_of(hall, 0, 1), ACCEPTED, 3, MONDZAFEKY_FROM_TABLE);
    REPLIES(read_of(hall, 0, 5), ACCEPTED, 0, MONDZAFEKY_FROM_TABLE);
    CHECK(mondzafeky_columns(hall) == 2 && mondzafeky_floor(hall) == 1);
    CHECK(mondzafeky_records(hall) == 3 && mondzafeky_answers(hall) == 2);
    /* three each of (1, x) and (*, x), and (1, *), (*, *), (?, *), (5, *) */
    CHECK(mondzafeky_nodes(hall) == 10);
    /* (1, *), marked and raised by three inserts, goes at 4 */
    REPLIES(mondzafeky_hall_evict_node(hall, 2), ACCEPTED, 0, NOTHING);
    CHECK(mondzafeky_nodes(hall) == 9 && mondzafeky_floor(hall) == 4);
    REPLIES(mondzafeky_hall_evict_answer(hall, 0), ACCEPTED, 0, NOTHING);
    CHECK(mondzafeky_answers(hall) == 1);
    check_desks(hall);
}

/*
 * Saved with works under way, as check_inside leaves them, and loaded into another hall: both go on
 * alike.
 */
static void check_saved(mondzafeky_hall *hall)
{
    static mondzafeky_hall loaded;
    FILE *file = tmpfile();
    REPLIES(begin_read(hall, 3, 1), ACCEPTED, 0, NOTHING);
    steps(hall, 3, 2);
    CHECK(file != NULL);
    CHECK(fwrite(hall, sizeof(uint32_t), MONDZAFEKY_HALL_NUMBERS, file) == 28400);
    CHECK(ftell(file) == 113600);
    rewind(file);
    memset(&loaded, 255, sizeof loaded);
    CHECK(fread(&loaded, sizeof(uint32_t), MONDZAFEKY_HALL_NUMBERS, file) == 28400);
    fclose(file);
    CHECK(memcmp(hall, &loaded, 113600) == 0);
    CHECK(loaded.tray[0] == UINT32_MAX);
    REPLIES(mondzafeky_run(hall, 3), ACCEPTED, 2, MONDZAFEKY_FROM_TABLE);
    REPLIES(mondzafeky_run(&loaded, 3), ACCEPTED, 2, MONDZAFEKY_FROM_TABLE);
    CHECK(memcmp(hall, &loaded, 113600) == 0);
    CHECK(mondzafeky_record(&loaded, 1)[1] == 3);
    CHECK(loaded.tray[4] == UINT32_MAX);
    /* desk 8 counts what fits (5, *): no record */
    REPLIES(mondzafeky_run(&loaded, 8), ACCEPTED, 0, MONDZAFEKY_FROM_TABLE);
    CHECK(mondzafeky_record(&loaded, 1)[1] == 3);
}

/* ---- tallies */

static mondzafeky_tally day, low_day;

static int same_tally(const mondzafeky_tally *one, const mondzafeky_tally *other)
{
    return memcmp(one, other, sizeof *one) == 0;
}

/* Fails unless the day's nine counts are these, in their order. */
#define DAY_IS(begun, file, table, is_long, left, writes, changed, unchanged, given_up) \
    do { \
        const mondzafeky_tally wanted = { \
            begun, file, table, is_long, left, writes, changed, unchanged, given_up}; \
        CHECK(same_tally(&day, &wanted)); \
    } while (0)

/* Nine numbers in the document's order, and no gap; cleared in both ways; the share from file. */
static void check_tally(void)
{
    const mondzafeky_tally cleared = MONDZAFEKY_TALLY_CLEARED;
    CHECK(sizeof(mondzafeky_tally) == 9 * sizeof(uint32_t));
    CHECK(offsetof(mondzafeky_tally, reads_begun) == 0);
    CHECK(offsetof(mondzafeky_tally, from_file) == 4);
    CHECK(offsetof(mondzafeky_tally, from_table) == 8);
    CHECK(offsetof(mondzafeky_tally, ended_long) == 12);
    CHECK(offsetof(mondzafeky_tally, reads_abandoned) == 16);
    CHECK(offsetof(mondzafeky_tally, writes_begun) == 20);
    CHECK(offsetof(mondzafeky_tally, ended_changed) == 24);
    CHECK(offsetof(mondzafeky_tally, ended_unchanged) == 28);
    CHECK(offsetof(mondzafeky_tally, writes_abandoned) == 32);
    day = mondzafeky_tally_cleared();
    DAY_IS(0, 0, 0, 0, 0, 0, 0, 0, 0);
    CHECK(same_tally(&day, &cleared));
    CHECK(mondzafeky_tally_answered(&day) == 0 && mondzafeky_tally_share(&day) == 0);
    day.from_table = 3;
    CHECK(mondzafeky_tally_answered(&day) == 3 && mondzafeky_tally_share(&day) == 0);
    day.from_file = 6;
    CHECK(mondzafeky_tally_answered(&day) == 9 && mondzafeky_tally_share(&day) == 666);
    day.from_file = UINT32_MAX;
    day.from_table = UINT32_MAX;
    CHECK(mondzafeky_tally_answered(&day) == 8589934590u && mondzafeky_tally_share(&day) == 500);
    day.from_table = 0;
    CHECK(mondzafeky_tally_share(&day) == 1000);
}

/* A call over the hall and the low call beside it, each with a tally of its own. */
#define AGREE_TALLIED(call, low_call) \
    do { \
        AGREE(call, low_call); \
        CHECK(same_tally(&day, &low_day)); \
    } while (0)
#define AGREE_STEP_TALLIED(client) \
    AGREE_TALLIED(mondzafeky_hall_step_tallied(hall, &day, client), \
                  mondzafeky_step_tallied(MEMORIES(&low), low.tray, MONDZAFEKY_TRAY_LEAST, \
                                          &low_day, client))

/* Each call with a tally does what the low call does, and counts what it counts. */
static void check_tallied_handed_on(mondzafeky_hall *hall)
{
    const mondzafeky_column query[2] = {mondzafeky_is(3), mondzafeky_star()};
    const mondzafeky_column record[2] = {mondzafeky_is(3), mondzafeky_is(4)};
    const uint32_t numbers[4] = {1, 3, 0, 0}, record_numbers[4] = {1, 3, 1, 4};
    int i;
    AGREE(mondzafeky_hall_open(hall, 2), mondzafeky_open(MEMORIES(&low), 2));
    low_day = day = mondzafeky_tally_cleared();
    AGREE_TALLIED(mondzafeky_hall_begin_insert_tallied(hall, &day, 11, record, 2),
                  mondzafeky_begin_insert_tallied(MEMORIES(&low), &low_day, 11, record_numbers, 4));
    AGREE_TALLIED(mondzafeky_hall_begin_delete_tallied(hall, &day, 0, query, 2),
                  mondzafeky_begin_delete_tallied(MEMORIES(&low), &low_day, 0, numbers, 4));
    AGREE_TALLIED(mondzafeky_hall_begin_read_tallied(hall, &day, 1, query, 2),
                  mondzafeky_begin_read_tallied(MEMORIES(&low), &low_day, 1, numbers, 4));
    AGREE_TALLIED(mondzafeky_hall_begin_count_tallied(hall, &day, 2, query, 2),
                  mondzafeky_begin_count_tallied(MEMORIES(&low), &low_day, 2, numbers, 4));
    AGREE_TALLIED(
        mondzafeky_hall_begin_read_within_tallied(hall, &day, 3, query, 2, 1, 4, 9),
        mondzafeky_begin_read_within_tallied(MEMORIES(&low), &low_day, 3, numbers, 4, 1, 4, 9));
    AGREE_TALLIED(
        mondzafeky_hall_begin_count_within_tallied(hall, &day, 4, query, 2, 1, 4, 9),
        mondzafeky_begin_count_within_tallied(MEMORIES(&low), &low_day, 4, numbers, 4, 1, 4, 9));
    CHECK(hall->clients[8 + 4 * 157 + 10] == 4 && hall->clients[8 + 4 * 157 + 11] == 9);
    DAY_IS(4, 0, 0, 0, 0, 2, 0, 0, 0);
    for (i = 0; i < 9; i++) {
        AGREE_STEP_TALLIED(11);
        AGREE_STEP_TALLIED(1);
        AGREE_STEP_TALLIED(3);
    }
    AGREE_TALLIED(mondzafeky_hall_abandon_tallied(hall, &day, 0),
                  mondzafeky_abandon_tallied(MEMORIES(&low), &low_day, 0));
    AGREE_TALLIED(mondzafeky_hall_abandon_tallied(hall, &day, 2),
                  mondzafeky_abandon_tallied(MEMORIES(&low), &low_day, 2));
    DAY_IS(4, 0, 2, 0, 1, 2, 1, 0, 1);
}

/* A read of (first, *) or a write of (first, second), lent the day's tally from begin to end. */
static mondzafeky_reply read_tallied(mondzafeky_hall *hall, uint32_t first)
{
    const mondzafeky_column query[2] = {mondzafeky_is(first), mondzafeky_star()};
    REPLIES(mondzafeky_hall_begin_read_tallied(hall, &day, 1, query, 2), ACCEPTED, 0, NOTHING);
    return mondzafeky_run_tallied(hall, &day, 1);
}

static mondzafeky_reply write_tallied(
    mondzafeky_hall *hall, int inserts, uint32_t first, uint32_t second)
{
    const mondzafeky_column record[2] = {mondzafeky_is(first), mondzafeky_is(second)};
    REPLIES(inserts ? mondzafeky_hall_begin_insert_tallied(hall, &day, 2, record, 2)
                    : mondzafeky_hall_begin_delete_tallied(hall, &day, 2, record, 2),
            ACCEPTED, 0, NOTHING);
    return mondzafeky_run_tallied(hall, &day, 2);
}

/*
 * A small history with its tally, in the hall that check_ends leaves: the records are (3, 41),
 * (7, 0 to 31) and (8, 33 to 2,047). Reads begun equal the four counts after them plus the reads
 * under way; writes likewise.
 */
static void check_tallied_history(mondzafeky_hall *hall)
{
    const mondzafeky_column seven[2] = {mondzafeky_is(7), mondzafeky_star()};
    static mondzafeky_hall before;
    before = *hall;
    day = mondzafeky_tally_cleared();
    REPLIES(read_tallied(hall, 3), ACCEPTED, 1, MONDZAFEKY_FROM_TABLE);
    REPLIES(read_tallied(hall, 3), ACCEPTED, 1, MONDZAFEKY_FROM_FILE);
    REPLIES(read_tallied(hall, 3), ACCEPTED, 1, MONDZAFEKY_FROM_FILE);
    REPLIES(read_tallied(hall, 8), MONDZAFEKY_LONG, 0, NOTHING);
    DAY_IS(4, 2, 1, 1, 0, 0, 0, 0, 0);
    REPLIES(write_tallied(hall, 1, 9, 1), MONDZAFEKY_FULL, 0, NOTHING);
    REPLIES(write_tallied(hall, 1, 3, 41), ACCEPTED, 0, MONDZAFEKY_UNCHANGED);
    REPLIES(write_tallied(hall, 0, 3, 41), ACCEPTED, 0, MONDZAFEKY_CHANGED);
    DAY_IS(4, 2, 1, 1, 0, 3, 1, 2, 0);
    /* under way: a count, and a delete that is given up before its table step, then one after it */
    REPLIES(mondzafeky_hall_begin_count_tallied(hall, &day, 1, seven, 2), ACCEPTED, 0, NOTHING);
    REPLIES(mondzafeky_hall_begin_delete_tallied(hall, &day, 2, seven, 2), ACCEPTED, 0, NOTHING);
    steps(hall, 2, 4);
    REPLIES(mondzafeky_hall_abandon_tallied(hall, &day, 2), ACCEPTED, 0, NOTHING);
    REPLIES(mondzafeky_hall_begin_delete_tallied(hall, &day, 2, seven, 2), ACCEPTED, 0, NOTHING);
    REPLIES(mondzafeky_hall_begin_delete_tallied(hall, &day, 2, seven, 2), MONDZAFEKY_TAKEN, 0,
            NOTHING);
    DAY_IS(5, 2, 1, 1, 0, 5, 1, 2, 1);
    steps(hall, 2, 5);
    REPLIES(mondzafeky_hall_abandon_tallied(hall, &day, 2), ACCEPTED, 0, MONDZAFEKY_CHANGED);
    REPLIES(mondzafeky_hall_abandon_tallied(hall, &day, 1), ACCEPTED, 0, NOTHING);
    REPLIES(mondzafeky_hall_abandon_tallied(hall, &day, 1), MONDZAFEKY_IDLE, 0, NOTHING);
    DAY_IS(5, 2, 1, 1, 1, 5, 2, 2, 1);
    *hall = before;
}

/*
 * With this count full the call is 15, and hall and tally stay; with a new tally it goes on, and
 * with room for one more in the count it fills it.
 */
#define FULL_AT(count, call, number, records, ending) \
    do { \
        static mondzafeky_hall before; \
        mondzafeky_tally full = MONDZAFEKY_TALLY_CLEARED; \
        full.count = UINT32_MAX; \
        before = *hall; \
        day = full; \
        REPLIES(call, MONDZAFEKY_TALLY_FULL, 0, NOTHING); \
        CHECK(same(hall, &before) && same_tally(&day, &full)); \
        day = mondzafeky_tally_cleared(); \
        REPLIES(call, number, records, ending); \
        full.count = 1; \
        CHECK(!same(hall, &before) && same_tally(&day, &full)); \
        *hall = before; \
        full.count = UINT32_MAX; \
        day = full; \
        day.count--; \
        REPLIES(call, number, records, ending); \
        CHECK(same_tally(&day, &full)); \
    } while (0)

/* 15 of the counts of reads, in the same hall; the hall's plain steps lead up to each. */
static void check_full_of_reads(mondzafeky_hall *hall)
{
    const mondzafeky_column query[2] = {mondzafeky_is(3), mondzafeky_star()};
    FULL_AT(reads_begun, mondzafeky_hall_begin_read_tallied(hall, &day, 1, query, 2), ACCEPTED, 0,
            NOTHING);
    steps(hall, 1, 4);
    FULL_AT(from_table, mondzafeky_hall_step_tallied(hall, &day, 1), ACCEPTED, 1,
            MONDZAFEKY_FROM_TABLE);
    FULL_AT(reads_begun, mondzafeky_hall_begin_read_tallied(hall, &day, 1, query, 2), ACCEPTED, 0,
            NOTHING);
    steps(hall, 1, 2);
    FULL_AT(from_file, mondzafeky_hall_step_tallied(hall, &day, 1), ACCEPTED, 1,
            MONDZAFEKY_FROM_FILE);
    FULL_AT(reads_begun, mondzafeky_hall_begin_count_within_tallied(hall, &day, 1, query, 2, 1, 4,
                                                                    9), ACCEPTED, 0, NOTHING);
    FULL_AT(reads_abandoned, mondzafeky_hall_abandon_tallied(hall, &day, 1), ACCEPTED, 0, NOTHING);
    REPLIES(begin_read(hall, 1, 8), ACCEPTED, 0, NOTHING);
    steps(hall, 1, 3);
    FULL_AT(ended_long, mondzafeky_hall_step_tallied(hall, &day, 1), MONDZAFEKY_LONG, 0, NOTHING);
}

/* 15 of the counts of writes, and a run that stops at it and goes on with the next tally. */
static void check_full_of_writes(mondzafeky_hall *hall)
{
    const mondzafeky_column record[2] = {mondzafeky_is(9), mondzafeky_is(1)};
    const mondzafeky_column there[2] = {mondzafeky_is(3), mondzafeky_is(41)};
    FULL_AT(writes_begun, mondzafeky_hall_begin_insert_tallied(hall, &day, 2, record, 2), ACCEPTED,
            0, NOTHING);
    FULL_AT(writes_abandoned, mondzafeky_hall_abandon_tallied(hall, &day, 2), ACCEPTED, 0, NOTHING);
    FULL_AT(writes_begun, mondzafeky_hall_begin_insert_tallied(hall, &day, 2, record, 2), ACCEPTED,
            0, NOTHING);
    steps(hall, 2, 8);
    FULL_AT(ended_unchanged, mondzafeky_hall_step_tallied(hall, &day, 2), MONDZAFEKY_FULL, 0,
            NOTHING);
    FULL_AT(writes_begun, mondzafeky_hall_begin_delete_tallied(hall, &day, 2, there, 2), ACCEPTED,
            0, NOTHING);
    steps(hall, 2, 5);
    FULL_AT(ended_changed, mondzafeky_hall_abandon_tallied(hall, &day, 2), ACCEPTED, 0,
            MONDZAFEKY_CHANGED);
    REPLIES(mondzafeky_hall_begin_insert(hall, 2, there, 2), ACCEPTED, 0, NOTHING);
    day = mondzafeky_tally_cleared();
    day.ended_changed = UINT32_MAX;
    REPLIES(mondzafeky_run_tallied(hall, &day, 2), MONDZAFEKY_TALLY_FULL, 0, NOTHING);
    CHECK(mondzafeky_steps(hall, 2) == 8 && mondzafeky_work(hall, 2) == 2);
    day = mondzafeky_tally_cleared();
    REPLIES(mondzafeky_run_tallied(hall, &day, 2), ACCEPTED, 0, MONDZAFEKY_CHANGED);
    DAY_IS(0, 0, 0, 0, 0, 0, 1, 0, 0);
}

static void check_hall(mondzafeky_hall *hall)
{
    check_unopened(hall);
    check_handed_on(hall);
    check_tallied_handed_on(hall);
    check_ends(hall);
    check_tallied_history(hall);
    check_full_of_reads(hall);
    check_full_of_writes(hall);
    check_abandonings(hall);
    check_ranges(hall);
    check_ranges_beside_plain(hall);
    check_zeros(hall);
    check_counts(hall);
    check_refusals(hall);
    check_inside(hall);
    check_saved(hall);
}

static mondzafeky_hall static_hall;

int main(void)
{
    mondzafeky_hall stack_hall = {{0}, {0}, {0}, {0}, {0}};
    mondzafeky_hall *heap_hall = (mondzafeky_hall *)calloc(1, sizeof *heap_hall);
    CHECK(heap_hall != NULL);
    CHECK(sizeof(mondzafeky_hall) == 28528 * sizeof(uint32_t));
    check_words();
    check_columns();
    check_tally();
    check_hall(&static_hall);
    check_hall(&stack_hall);
    check_hall(heap_hall);
    free(heap_hall);
    return 0;
}
