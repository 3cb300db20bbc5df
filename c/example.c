/*
 * Three desks at one table, as a model for a program in C. An answer is filed and given again; a
 * record is corrected, by a delete and an insert, step by step while other desks read; a bench is
 * pulled out in the middle of a write; a read of too many records and an insert into a full table
 * come to their ends; a range asks for some of them, and one is refused and named; a count tells
 * how many there are. Each begin, step and abandoning is lent the day's tally, which is printed at
 * the end, for the foreman: what filing has saved.
 * Leans on mondzafeky.h alone. The Rust example three_desks tells the same and prints the same.
 */
#include "mondzafeky.h"

#include <stdio.h>
#include <stdlib.h>

/* The columns: bench, setting. */
#define K 2u

static mondzafeky_hall hall;

/* What was begun at the desks and how it ended, since the opening. */
static mondzafeky_tally day = MONDZAFEKY_TALLY_CLEARED;

static const char *place_of(mondzafeky_reply reply)
{
    return reply.ending == MONDZAFEKY_FROM_FILE ? "file" : "table";
}

/*
 * What a call replied. 12 and 13 are ends like the others: the desk is idle after them. The reply
 * does not say whether a count was under way: then there are no records to print.
 */
static void tell(mondzafeky_reply reply, int counts)
{
    uint32_t i;
    if (reply.number != MONDZAFEKY_ACCEPTED) {
        printf("%s with %u, %s. %s\n", mondzafeky_refused(reply) ? "refused" : "ended",
               reply.number, mondzafeky_name(reply.number), mondzafeky_sentence(reply.number));
    } else if (!mondzafeky_ended(reply)) {
        printf("under way\n");
    } else if (reply.ending == MONDZAFEKY_CHANGED) {
        printf("ended, the table has changed\n");
    } else if (reply.ending == MONDZAFEKY_UNCHANGED) {
        printf("ended, the table is as it was\n");
    } else if (counts) {
        printf("counted from %s: %u\n", place_of(reply), reply.count);
    } else {
        printf("answered from %s with %u", place_of(reply), reply.count);
        /* the records lie in the tray until the next answer: a few of them are printed */
        for (i = 0; i < reply.count && i < 3; i++) {
            const uint32_t *record = mondzafeky_record(&hall, i);
            printf("%s (%u, %u)", i == 0 ? ":" : ",", record[0], record[1]);
        }
        printf("%s\n", reply.count > 3 ? ", .." : "");
    }
}

/* A call that this program cannot go on without: if it is refused, that is told, and all ends. */
static void must(mondzafeky_reply reply)
{
    if (mondzafeky_refused(reply)) {
        tell(reply, 0);
        exit(1);
    }
}

/* The begins, told. */
static void begin_insert(uint32_t desk, uint32_t bench, uint32_t setting)
{
    const mondzafeky_column record[K] = {mondzafeky_is(bench), mondzafeky_is(setting)};
    printf("desk %u begins to insert (%u, %u)\n", desk, bench, setting);
    must(mondzafeky_hall_begin_insert_tallied(&hall, &day, desk, record, K));
}

static void begin_delete(uint32_t desk, uint32_t bench, uint32_t setting)
{
    const mondzafeky_column record[K] = {mondzafeky_is(bench), mondzafeky_is(setting)};
    printf("desk %u begins to delete (%u, %u)\n", desk, bench, setting);
    must(mondzafeky_hall_begin_delete_tallied(&hall, &day, desk, record, K));
}

/* Any setting of a bench. */
static void begin_read(uint32_t desk, uint32_t bench)
{
    const mondzafeky_column query[K] = {mondzafeky_is(bench), mondzafeky_star()};
    printf("desk %u begins to read (%u, *)\n", desk, bench);
    must(mondzafeky_hall_begin_read_tallied(&hall, &day, desk, query, K));
}

/* The settings of a bench from a lowest to a highest, both included; they are in column 1. */
static mondzafeky_reply begin_read_within(
    uint32_t desk, uint32_t bench, uint32_t lowest, uint32_t highest)
{
    const mondzafeky_column query[K] = {mondzafeky_is(bench), mondzafeky_star()};
    printf("desk %u begins to read (%u, %u to %u)\n", desk, bench, lowest, highest);
    return mondzafeky_hall_begin_read_within_tallied(
        &hall, &day, desk, query, K, 1, lowest, highest);
}

/* How many records there are, of any bench and setting. */
static void begin_count_all(uint32_t desk)
{
    const mondzafeky_column all[K] = {mondzafeky_star(), mondzafeky_star()};
    printf("desk %u begins to count (*, *)\n", desk);
    must(mondzafeky_hall_begin_count_tallied(&hall, &day, desk, all, K));
}

/* All steps up to the end, which is told. */
static void run(uint32_t desk)
{
    const int counts = mondzafeky_counts(&hall, desk);
    printf("  desk %u: ", desk);
    tell(mondzafeky_run_tallied(&hall, &day, desk), counts);
}

/* One step for each place in a row of desks, each told. */
static void steps(const char *row)
{
    static const char *const works[4] = {"nothing", "read", "insert", "delete"};
    for (; *row != '\0'; row++) {
        const uint32_t desk = (uint32_t)(*row - '0');
        const uint32_t made = mondzafeky_steps(&hall, desk);
        const int counts = mondzafeky_counts(&hall, desk);
        const char *work = counts ? "count" : works[mondzafeky_work(&hall, desk)];
        printf("  desk %u, %s, step %u: ", desk, work, made + 1);
        tell(mondzafeky_hall_step_tallied(&hall, &day, desk), counts);
    }
}

/*
 * The bench of a desk is pulled out: what is under way there is abandoned. A write that has reached
 * the table ends with that, as with its last step; anything else is given up.
 */
static void pull_out(uint32_t desk)
{
    const mondzafeky_reply reply = mondzafeky_hall_abandon_tallied(&hall, &day, desk);
    must(reply);
    printf("the bench of desk %u is pulled out: ", desk);
    if (mondzafeky_ended(reply)) {
        tell(reply, 0);
    } else {
        printf("given up, nothing of it is in the table\n");
    }
}

/* So many records of a bench, settings 1, 2 and so on, inserted at desk 0. */
static void fill(uint32_t bench, uint32_t count)
{
    uint32_t setting;
    for (setting = 1; setting <= count; setting++) {
        const mondzafeky_column record[K] = {mondzafeky_is(bench), mondzafeky_is(setting)};
        must(mondzafeky_hall_begin_insert_tallied(&hall, &day, 0, record, K));
        must(mondzafeky_run_tallied(&hall, &day, 0));
    }
    printf("the table holds %u records\n", mondzafeky_records(&hall));
}

/* Reads of bench 3 at two desks, one after the other. */
static void read_twice(void)
{
    begin_read(1, 3);
    run(1);
    begin_read(2, 3);
    run(2);
}

/* An insert is cut short on each side of its table step; its marks do not stay. */
static void cut_short(void)
{
    printf("-- a bench is pulled out before its insert's table step: what was filed holds\n");
    begin_insert(0, 3, 42);
    steps("0000");
    pull_out(0);
    read_twice();
    printf("-- and after it: the insert ends at once, and the next answer is filed\n");
    begin_insert(0, 3, 42);
    steps("000000");
    pull_out(0);
    read_twice();
}

/* 12, a range, a count, 13. */
static void ends(void)
{
    const mondzafeky_column all[K] = {mondzafeky_star(), mondzafeky_star()};
    mondzafeky_reply reversed;
    printf("-- a read of more than 32 records ends with 12: read in parts\n");
    fill(7, MONDZAFEKY_LIST);
    printf("desk 1 begins to read (*, *)\n");
    must(mondzafeky_hall_begin_read_tallied(&hall, &day, 1, all, K));
    run(1);
    begin_read(1, 7);
    run(1);
    printf("-- a range asks for settings 4 to 9 alone; one from 9 to 4 is refused\n");
    must(begin_read_within(1, 7, 4, 9));
    run(1);
    reversed = begin_read_within(1, 7, 9, 4);
    printf("  desk 1: ");
    tell(reversed, 0);
    printf("-- a count tells how many there are, past 32 too; it is filed as a list is\n");
    begin_count_all(1);
    steps("1111");
    begin_count_all(2);
    run(2);
    printf("-- an insert into a full table ends with 13\n");
    fill(8, MONDZAFEKY_RECORDS - mondzafeky_records(&hall));
    begin_insert(2, 9, 1);
    run(2);
}

/*
 * The tally as a small table: what was begun, how it ended, and how many of the reads that were
 * answered were saved the way to the table.
 */
static void tell_day(void)
{
    static const char *const names[9] = {
        "reads begun", "  answered from file", "  answered from the table", "  ended long",
        "  abandoned", "writes begun", "  ended, changed", "  ended, unchanged",
        "  abandoned before the table"};
    const uint32_t counts[9] = {
        day.reads_begun, day.from_file, day.from_table, day.ended_long, day.reads_abandoned,
        day.writes_begun, day.ended_changed, day.ended_unchanged, day.writes_abandoned};
    const uint64_t answered = mondzafeky_tally_answered(&day);
    const uint32_t share = mondzafeky_tally_share(&day);
    int i;
    for (i = 0; i < 9; i++) {
        printf("%-28s %10u\n", names[i], counts[i]);
    }
    if (answered == 0) {
        printf("from file: none answered yet\n");
    } else {
        printf("from file: %u of %llu answered, %u.%u %%\n", day.from_file,
               (unsigned long long)answered, share / 10, share % 10);
    }
}

/* A read and a write that the day ends with are given up: the tally has none under way then. */
static void close_up(void)
{
    printf("-- the day ends: what is under way is given up, and the foreman gets the tally\n");
    begin_read(1, 3);
    begin_insert(0, 3, 43);
    pull_out(1);
    pull_out(0);
    tell_day();
}

int main(void)
{
    must(mondzafeky_hall_open(&hall, K));
    printf("-- an answer is filed at the first read and given again at the second\n");
    begin_insert(0, 3, 40);
    run(0);
    read_twice();
    printf("-- a correction is a delete and an insert; a read meets the delete's marks\n");
    begin_delete(0, 3, 40);
    steps("000");
    begin_read(1, 3);
    steps("101110");
    printf("-- the delete has reached the table: a read sees the gap\n");
    begin_read(2, 3);
    steps("20202020");
    printf("-- the insert closes the gap while a read is under way\n");
    begin_insert(0, 3, 41);
    steps("0000");
    begin_read(1, 3);
    steps("101110000");
    printf("-- a read that begins after the insert's end sees it; its answer is filed\n");
    read_twice();
    cut_short();
    ends();
    close_up();
    return 0;
}
