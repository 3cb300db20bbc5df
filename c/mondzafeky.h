/*
 * mondzafeky.h: cached query answers that are never stale, for programs in C99 and C++11 or later.
 *
 * One table of up to 2,048 records of k columns (k is 1 to 4), 64 filed answers, 1,024 revision
 * nodes that tell which answers still hold, and 12 desks, which the names below call clients. Each
 * desk has at most one read or write under way and moves it by single steps; steps of different
 * desks may be mixed in every order. docs/CALLS.md has the calls at length, docs/LAYOUT.md what
 * stands where in the memories, c/example.c is a whole program.
 *
 * TO LINK: tools/archive DIR puts this header, libmondzafeky.a, its sha256 and mondzafeky.pc into a
 * folder (x86-64 Linux). Then either of
 *     cc program.c -IDIR DIR/libmondzafeky.a
 *     cc program.c $(PKG_CONFIG_PATH=DIR pkg-config --cflags --libs mondzafeky)
 * The archive calls memcpy, memmove and memset of the C library and nothing else: no heap, no
 * files, no state of its own, no other thread.
 *
 * THE HALL: a mondzafeky_hall of yours holds all that the calls work on. It may be static, on the
 * stack (114,112 bytes) or on the heap.
 *     static mondzafeky_hall hall;
 *     mondzafeky_column query[2];
 *     mondzafeky_reply reply;
 *     mondzafeky_hall_open(&hall, 2);
 *     query[0] = mondzafeky_is(3);                       3 in the first column,
 *     query[1] = mondzafeky_star();                      anything in the second
 *     reply = mondzafeky_hall_begin_read(&hall, 0, query, 2);
 *     if (!mondzafeky_refused(reply)) reply = mondzafeky_run(&hall, 0);
 * A bench can be pulled out at any time: mondzafeky_hall_abandon ends what its desk was at.
 * What filing saves is counted in a mondzafeky_tally, which the calls whose names end in _tallied
 * are lent along.
 * The inline functions over a hall hand their arguments on to the twenty calls of the archive,
 * whose work is proved; they themselves are not proved. The twenty calls stand before them, and
 * take each memory for itself.
 *
 * WHAT YOU OWE at a call over a hall, and this is all:
 *   - the pointer is to a hall, and all of its numbers have been set before (to anything: a static
 *     one is 0, a heap one is set by calloc, one on the stack by "= {0}", in C++ by "= {}");
 *   - a query is not NULL, has as many columns as you say, and does not lie in the hall;
 *   - a tally is not NULL, its nine numbers have been set before (to anything), and it does not lie
 *     in the hall or in the query;
 *   - no other thread uses the hall or the tally during the call: one lock around each call.
 * Desks, places, queries, ranges, counts of a tally and the hall's contents may be anything: what
 * does not fit is refused by a number. Every call returns, allocates nothing and keeps no pointer.
 * A call that is refused (1 to 11 but 7, 14 and 15) leaves every number of the hall and of the
 * tally as it was. A hall that was never opened (all 0) gives 2 at a begin (3 if its query has no
 * column, and no range is given) and 3 at every other call but opening. The answers are promised
 * for a hall that has been opened and that nothing but these calls has written into since.
 */
#ifndef MONDZAFEKY_H
#define MONDZAFEKY_H

#include <stddef.h>
#include <stdint.h>

#define MONDZAFEKY_VERSION "0.1.0"

/* The least lengths of the memories, in 32-bit numbers. */
#define MONDZAFEKY_TABLE_LEAST 8200u
#define MONDZAFEKY_NODES_LEAST 8200u
#define MONDZAFEKY_ANSWERS_LEAST 10000u
#define MONDZAFEKY_CLIENTS_LEAST 2000u
#define MONDZAFEKY_TRAY_LEAST 128u

/* The sizes of every hall. */
#define MONDZAFEKY_RECORDS 2048u
#define MONDZAFEKY_NODES 1024u
#define MONDZAFEKY_ANSWERS 64u
#define MONDZAFEKY_CLIENTS 12u /* the desks */
#define MONDZAFEKY_LIST 32u    /* the most records that a read lists */

/* What a call answers. */
typedef struct {
    uint32_t number; /* one of the numbers below */
    uint32_t count;  /* how many records were answered, or counted; 0 of all that is no answer */
    uint32_t ending; /* one of the endings below */
} mondzafeky_reply;

/*
 * Numbers. 1 to 11 but 7, 14 and 15 are refusals: no memory is altered. 12 and 13 are ends: the
 * read or the insert is over and its desk idle. The first that applies is given, in the order 1, 2,
 * 14, 3, 4 and so on to 11, then 15, then 12 and 13. mondzafeky_sentence says what each means and
 * what to do.
 */
#define MONDZAFEKY_ACCEPTED 0u
#define MONDZAFEKY_SHORT 1u     /* a lent memory is below its least length */
#define MONDZAFEKY_COLUMNS 2u   /* k not 1 to 4; not a query of k columns; an insert with a star; a
                                   range's column that is named too or not below k */
#define MONDZAFEKY_UNSOUND 3u   /* k, a number of entries, a filed list's length or a filed count
                                   in memory is out of range, or what stands at the desk or at its
                                   node is, or no unmarked node can make room */
#define MONDZAFEKY_NO_CLIENT 4u /* the client, the desk, is above 11 */
#define MONDZAFEKY_TAKEN 5u     /* a begin at a busy desk */
#define MONDZAFEKY_IDLE 6u      /* a step or an abandoning at an idle desk */
                                /* 7 is given no longer; the number stays unused */
#define MONDZAFEKY_NO_ENTRY 8u  /* no answer or node at that place */
#define MONDZAFEKY_PENDING 9u   /* the node to put out has marks: a write is pending there */
#define MONDZAFEKY_WORN 10u     /* a write begins while the floor or a counter is above
                                   4,294,967,103 */
#define MONDZAFEKY_OCCUPIED 11u /* a renewal with a busy desk */
#define MONDZAFEKY_LONG 12u     /* the read has ended: more than 32 records match; the tray is
                                   untouched; a count never ends so */
#define MONDZAFEKY_FULL 13u     /* the insert has ended, with its last step or an abandoning: the
                                   table held 2,048 records and not this one */
#define MONDZAFEKY_REVERSED 14u /* a range's lowest value is above its highest */
#define MONDZAFEKY_TALLY_FULL 15u /* the call would raise a count of its tally that stands at
                                   4,294,967,295: start a new tally; the read or write stays as it
                                   is and goes on with the next tally */

/* Endings: what has ended with this call. */
#define MONDZAFEKY_NOTHING 0u    /* nothing, or the number says what (12 and 13) */
#define MONDZAFEKY_FROM_FILE 1u  /* a read or a count, answered with a filed answer */
#define MONDZAFEKY_FROM_TABLE 2u /* a read or a count, answered from the table */
#define MONDZAFEKY_CHANGED 3u    /* a write, and it changed the table */
#define MONDZAFEKY_UNCHANGED 4u  /* a write, and it left the table as it was and raised no counter:
                                    it costs a read that begins later no filed answer, unless a node
                                    of that answer was put out, as those that a write adds may do
                                    where 1,024 are there */

/*
 * The day's tally: how many reads and writes were begun and how they ended, so that it can be seen
 * what filing saves. Lend it along with each begin, step and abandoning, by the calls whose names
 * end in _tallied. Each such call that is accepted raises the one count that it concerns; a step
 * that ends nothing raises none, nor does a refused call. A call that is lent no tally is counted
 * nowhere.
 *     mondzafeky_tally day = MONDZAFEKY_TALLY_CLEARED;
 * From an opening with a cleared tally that is lent along with every such call, reads_begun equals
 * the four counts after it plus the reads under way, and writes_begun the three after it plus the
 * writes under way. 15 is given, and nothing altered, where a call would raise a count that stands
 * at 4,294,967,295: keep what that tally counts, clear it or take another, and make the call again.
 */
typedef struct {
    uint32_t reads_begun;      /* reads begun: lists and counts, with a range or without */
    uint32_t from_file;        /* reads answered from file: they were saved the way to the table */
    uint32_t from_table;       /* reads answered from the table */
    uint32_t ended_long;       /* reads that ended long: 12 */
    uint32_t reads_abandoned;  /* reads abandoned */
    uint32_t writes_begun;     /* writes begun: inserts and deletes */
    uint32_t ended_changed;    /* writes that ended and changed the table, by their last step or
                                  abandoned after their table step */
    uint32_t ended_unchanged;  /* writes that ended so and left the table as it was; 13, a full
                                  table, too */
    uint32_t writes_abandoned; /* writes abandoned before their table step */
} mondzafeky_tally;

/* A tally in which nothing is counted yet, where it is defined. */
#define MONDZAFEKY_TALLY_CLEARED {0u, 0u, 0u, 0u, 0u, 0u, 0u, 0u, 0u}

/* The same anywhere: day = mondzafeky_tally_cleared() starts a new day. */
static inline mondzafeky_tally mondzafeky_tally_cleared(void)
{
    const mondzafeky_tally cleared = MONDZAFEKY_TALLY_CLEARED;
    return cleared;
}

/* The archive's tally is nine numbers: there must be no gap between these. */
typedef char mondzafeky_tally_has_no_gap[sizeof(mondzafeky_tally) == 36u ? 1 : -1];

/* How many reads were answered, from file or from the table. */
static inline uint64_t mondzafeky_tally_answered(const mondzafeky_tally *tally)
{
    return (uint64_t)tally->from_file + tally->from_table;
}

/*
 * The share answered from file of the reads that were answered, in tenths of a per cent and rounded
 * down: 0 to 1,000. 0 if none was answered, which mondzafeky_tally_answered tells.
 */
static inline uint32_t mondzafeky_tally_share(const mondzafeky_tally *tally)
{
    const uint64_t answered = mondzafeky_tally_answered(tally);
    return answered == 0u ? 0u : (uint32_t)(1000u * (uint64_t)tally->from_file / answered);
}

/*
 * The twenty calls of the archive, each memory for itself. A program with one mondzafeky_hall needs
 * none of them: the functions over a hall stand after them.
 *
 * What a caller owes here, and this is all:
 *   - a pointer and the length after it are a memory of that many 32-bit numbers, all of them set
 *     (to anything) before the call; the pointer is aligned as a uint32_t, and is not NULL, even
 *     where the length is 0;
 *   - a memory that is not const, the tally among them, overlaps no other of the same call;
 *   - no other thread uses these memories during the call.
 * Lengths too may be anything. Of each memory a call uses only numbers before its least length; of
 * a query, its query_len numbers. Lend each call the same four memories, as the call before left
 * them, and in this order: memories that were exchanged may pass as sound. The tray may be another
 * at each step.
 */
#ifdef __cplusplus
extern "C" {
#endif

/*
 * Opens a hall of k columns, 1 to 4: clears the four memories up to their least lengths, sets the
 * floor to 1 and leaves every desk idle. Refusals: 1, 2.
 */
mondzafeky_reply mondzafeky_open(
    uint32_t *table, size_t table_len, uint32_t *nodes, size_t nodes_len,
    uint32_t *answers, size_t answers_len, uint32_t *clients, size_t clients_len,
    uint32_t k);

/*
 * The six begins start a read or a write at an idle desk; they write that desk's part of the
 * clients memory. client: the desk, 0 to 11. A query has for each column two numbers, its mark and
 * its value: mark 1 names the value, mark 0 is a star, which any value fits, and its value is 0. So
 * query_len is 2 * k. With k 2, "3 in the first column, anything in the second" is {1, 3, 0, 0}.
 * A 0 in a record means "not measured": a star finds it, a named value never does, 0 neither. So a
 * read, count or delete that names 0 finds no record.
 *
 * begin_read: a read of the records that fit. It takes at most 19 accepted steps. Refusals: 1 to 5.
 */
mondzafeky_reply mondzafeky_begin_read(
    uint32_t *table, size_t table_len, uint32_t *nodes, size_t nodes_len,
    uint32_t *answers, size_t answers_len, uint32_t *clients, size_t clients_len,
    uint32_t client, const uint32_t *query, size_t query_len);

/*
 * begin_count: a read that wants only how many records fit. It makes a read's steps, at most 19
 * accepted ones, and is answered with the reply's count, 0 to 2,048, never with 12. A tray that is
 * long enough must be lent to its steps as to all others; none of them writes it. Refusals: 1 to 5.
 */
mondzafeky_reply mondzafeky_begin_count(
    uint32_t *table, size_t table_len, uint32_t *nodes, size_t nodes_len,
    uint32_t *answers, size_t answers_len, uint32_t *clients, size_t clients_len,
    uint32_t client, const uint32_t *query, size_t query_len);

/*
 * begin_read_within: a read with a range, "classes 4 to 9": of the records that fit the query it
 * wants those whose value in one column is lowest to highest, both included. column: that column,
 * by its number from 0; in the query it is a star. A record with 0 there is in no range, also in
 * one that begins at 0. It makes the steps of a read of that query. The range is a part of what is
 * asked: only an answer for the same column and ends is given from file.
 * Refusals: 1 to 5, and 14 for a lowest above the highest, which goes before 3, 4 and 5.
 */
mondzafeky_reply mondzafeky_begin_read_within(
    uint32_t *table, size_t table_len, uint32_t *nodes, size_t nodes_len,
    uint32_t *answers, size_t answers_len, uint32_t *clients, size_t clients_len,
    uint32_t client, const uint32_t *query, size_t query_len,
    uint32_t column, uint32_t lowest, uint32_t highest);

/* begin_count_within: a count with a range, how many these are. Refusals: 1 to 5, 14. */
mondzafeky_reply mondzafeky_begin_count_within(
    uint32_t *table, size_t table_len, uint32_t *nodes, size_t nodes_len,
    uint32_t *answers, size_t answers_len, uint32_t *clients, size_t clients_len,
    uint32_t client, const uint32_t *query, size_t query_len,
    uint32_t column, uint32_t lowest, uint32_t highest);

/*
 * begin_insert: an insert of one record; every column has its value, 0 where none was measured. It
 * takes at most 33 accepted steps. Refusals: 1 to 5, and 10.
 */
mondzafeky_reply mondzafeky_begin_insert(
    uint32_t *table, size_t table_len, uint32_t *nodes, size_t nodes_len,
    uint32_t *answers, size_t answers_len, uint32_t *clients, size_t clients_len,
    uint32_t client, const uint32_t *query, size_t query_len);

/*
 * begin_delete: a delete of every record that fits. It takes at most 33 accepted steps.
 * Refusals: 1 to 5, and 10.
 */
mondzafeky_reply mondzafeky_begin_delete(
    uint32_t *table, size_t table_len, uint32_t *nodes, size_t nodes_len,
    uint32_t *answers, size_t answers_len, uint32_t *clients, size_t clients_len,
    uint32_t client, const uint32_t *query, size_t query_len);

/*
 * One step of what is under way at the desk. It may write each of the four memories. A read's
 * answer writes count records of k numbers each from the tray's start, in ascending order, and
 * leaves the rest of the tray; other steps, those of a count too, leave the tray. The desk is idle
 * after an ending other than 0, and after the numbers 12 and 13. In memories that only these calls
 * have written into since an opening, a step at a busy desk with a tray of 128 numbers or more is
 * accepted. Refusals: 1 (of the tray too), 3, 4, 6.
 */
mondzafeky_reply mondzafeky_step(
    uint32_t *table, size_t table_len, uint32_t *nodes, size_t nodes_len,
    uint32_t *answers, size_t answers_len, uint32_t *clients, size_t clients_len,
    uint32_t *tray, size_t tray_len, uint32_t client);

/*
 * Ends what is under way at the desk in one call and at any time. A read is given up, and so is a
 * write before its table step, whose marks are taken back: number and ending are 0. The nodes that
 * it has added stay, and those put out for them are gone. A write that has made its table step has
 * taken effect: all of its remaining raises are made, and the reply is its end as its last step
 * would have told it, the ending 3 or 4, or the number 13. The counters go up only if it changed
 * the table. No mark of the write stays, and the desk is idle. Writes nodes and clients. Refusals:
 * 1, 3, 4, 6.
 */
mondzafeky_reply mondzafeky_abandon(
    uint32_t *table, size_t table_len, uint32_t *nodes, size_t nodes_len,
    uint32_t *answers, size_t answers_len, uint32_t *clients, size_t clients_len,
    uint32_t client);

/*
 * Puts out the filed answer at a place, 0 the oldest; the rest close up. Writes answers.
 * Refusals: 1, 3, 8.
 */
mondzafeky_reply mondzafeky_evict_answer(
    uint32_t *table, size_t table_len, uint32_t *nodes, size_t nodes_len,
    uint32_t *answers, size_t answers_len, uint32_t *clients, size_t clients_len,
    uint32_t place);

/*
 * Puts out the node at a place, 0 the oldest, which no write has marked; the rest close up. Writes
 * nodes. Refusals: 1, 3, 8, 9.
 */
mondzafeky_reply mondzafeky_evict_node(
    uint32_t *table, size_t table_len, uint32_t *nodes, size_t nodes_len,
    uint32_t *answers, size_t answers_len, uint32_t *clients, size_t clients_len,
    uint32_t place);

/*
 * With every desk idle: empties nodes and answers and sets the floor to 1; the table stays.
 * Refusals: 1, 3, 11.
 */
mondzafeky_reply mondzafeky_renew(
    uint32_t *table, size_t table_len, uint32_t *nodes, size_t nodes_len,
    uint32_t *answers, size_t answers_len, uint32_t *clients, size_t clients_len);

/*
 * The eight calls that are lent a tally. Each replies, and leaves the memories, as the call of the
 * same name without _tallied, and raises one count or none; or it is refused with 15 and leaves all
 * as it was, memories, tray and tally. 15 is tested after every other refusal of the call, and
 * before 12, 13 and every end: a step that would have ended the read or write then leaves it as it
 * is. Lend each call the same tally, as the call before left it, until a new one is started.
 *
 * The begins raise reads_begun or writes_begun. Refusals: those without a tally, and 15.
 */
mondzafeky_reply mondzafeky_begin_read_tallied(
    uint32_t *table, size_t table_len, uint32_t *nodes, size_t nodes_len,
    uint32_t *answers, size_t answers_len, uint32_t *clients, size_t clients_len,
    mondzafeky_tally *tally, uint32_t client, const uint32_t *query, size_t query_len);

mondzafeky_reply mondzafeky_begin_count_tallied(
    uint32_t *table, size_t table_len, uint32_t *nodes, size_t nodes_len,
    uint32_t *answers, size_t answers_len, uint32_t *clients, size_t clients_len,
    mondzafeky_tally *tally, uint32_t client, const uint32_t *query, size_t query_len);

mondzafeky_reply mondzafeky_begin_read_within_tallied(
    uint32_t *table, size_t table_len, uint32_t *nodes, size_t nodes_len,
    uint32_t *answers, size_t answers_len, uint32_t *clients, size_t clients_len,
    mondzafeky_tally *tally, uint32_t client, const uint32_t *query, size_t query_len,
    uint32_t column, uint32_t lowest, uint32_t highest);

mondzafeky_reply mondzafeky_begin_count_within_tallied(
    uint32_t *table, size_t table_len, uint32_t *nodes, size_t nodes_len,
    uint32_t *answers, size_t answers_len, uint32_t *clients, size_t clients_len,
    mondzafeky_tally *tally, uint32_t client, const uint32_t *query, size_t query_len,
    uint32_t column, uint32_t lowest, uint32_t highest);

mondzafeky_reply mondzafeky_begin_insert_tallied(
    uint32_t *table, size_t table_len, uint32_t *nodes, size_t nodes_len,
    uint32_t *answers, size_t answers_len, uint32_t *clients, size_t clients_len,
    mondzafeky_tally *tally, uint32_t client, const uint32_t *query, size_t query_len);

mondzafeky_reply mondzafeky_begin_delete_tallied(
    uint32_t *table, size_t table_len, uint32_t *nodes, size_t nodes_len,
    uint32_t *answers, size_t answers_len, uint32_t *clients, size_t clients_len,
    mondzafeky_tally *tally, uint32_t client, const uint32_t *query, size_t query_len);

/*
 * A step raises from_file or from_table with an answer, ended_long with 12, ended_changed or
 * ended_unchanged with a write's end, of which 13 is an unchanged one, and otherwise none.
 * Refusals: 1 (of the tray too), 3, 4, 6, 15.
 */
mondzafeky_reply mondzafeky_step_tallied(
    uint32_t *table, size_t table_len, uint32_t *nodes, size_t nodes_len,
    uint32_t *answers, size_t answers_len, uint32_t *clients, size_t clients_len,
    uint32_t *tray, size_t tray_len, mondzafeky_tally *tally, uint32_t client);

/*
 * An abandoning raises ended_changed or ended_unchanged if it tells a write's end, and otherwise
 * reads_abandoned or writes_abandoned. Refusals: 1, 3, 4, 6, 15.
 */
mondzafeky_reply mondzafeky_abandon_tallied(
    uint32_t *table, size_t table_len, uint32_t *nodes, size_t nodes_len,
    uint32_t *answers, size_t answers_len, uint32_t *clients, size_t clients_len,
    mondzafeky_tally *tally, uint32_t client);

#ifdef __cplusplus
}
#endif

/*
 * A hall: the four memories and a tray, each at its least length, so that they are always lent in
 * the same order and none is short.
 *
 * To save a hall write its first MONDZAFEKY_HALL_NUMBERS numbers, to load it read them back:
 *     fwrite(&hall, sizeof(uint32_t), MONDZAFEKY_HALL_NUMBERS, file)
 * That is table, nodes, answers and clients, 113,600 bytes of little-endian numbers and nothing
 * else. The tray is not saved: it holds no more than the answer that was given last.
 */
typedef struct {
    uint32_t table[MONDZAFEKY_TABLE_LEAST];
    uint32_t nodes[MONDZAFEKY_NODES_LEAST];
    uint32_t answers[MONDZAFEKY_ANSWERS_LEAST];
    uint32_t clients[MONDZAFEKY_CLIENTS_LEAST];
    uint32_t tray[MONDZAFEKY_TRAY_LEAST];
} mondzafeky_hall;

#define MONDZAFEKY_HALL_NUMBERS 28400u

/* A column of a query: made by mondzafeky_is or mondzafeky_star. */
typedef struct {
    uint32_t mark;  /* 1 names the value, 0 is a star */
    uint32_t value; /* 0 under a star */
} mondzafeky_column;

/* A saved hall and a query are handed on as their numbers: there must be no gap between these. */
typedef char mondzafeky_hall_has_no_gap
    [sizeof(mondzafeky_hall) == (MONDZAFEKY_HALL_NUMBERS + MONDZAFEKY_TRAY_LEAST) * 4u ? 1 : -1];
typedef char mondzafeky_column_has_no_gap[sizeof(mondzafeky_column) == 8u ? 1 : -1];

/*
 * The column that names a value. In an insert 0 means "not measured"; in a read, count or delete a
 * named 0 finds no record.
 */
static inline mondzafeky_column mondzafeky_is(uint32_t value)
{
    mondzafeky_column column;
    column.mark = 1u;
    column.value = value;
    return column;
}

/* The column that any value fits, 0 too. */
static inline mondzafeky_column mondzafeky_star(void)
{
    mondzafeky_column column;
    column.mark = 0u;
    column.value = 0u;
    return column;
}

/* A hall's four memories, in the order in which each of the twenty calls takes them. */
#define MONDZAFEKY_MEMORIES_(hall) \
    (hall)->table, MONDZAFEKY_TABLE_LEAST, (hall)->nodes, MONDZAFEKY_NODES_LEAST, \
    (hall)->answers, MONDZAFEKY_ANSWERS_LEAST, (hall)->clients, MONDZAFEKY_CLIENTS_LEAST

/*
 * Opens the hall with k columns, 1 to 4: no records, no nodes, no answers, the floor 1, every desk
 * idle. What was in it is gone. Refusal: 2.
 */
static inline mondzafeky_reply mondzafeky_hall_open(mondzafeky_hall *hall, uint32_t k)
{
    return mondzafeky_open(MONDZAFEKY_MEMORIES_(hall), k);
}

/*
 * Begins a read of the records that fit the query, at a desk, 0 to 11. columns: how many the query
 * has; k. It takes at most 19 accepted steps. Refusals: 2 to 5.
 */
static inline mondzafeky_reply mondzafeky_hall_begin_read(
    mondzafeky_hall *hall, uint32_t client, const mondzafeky_column *query, size_t columns)
{
    return mondzafeky_begin_read(MONDZAFEKY_MEMORIES_(hall), client, (const uint32_t *)query, 2u * columns);
}

/*
 * Begins a count at a desk: a read that wants only how many records fit the query, and makes the
 * same steps. It is answered with the reply's count, 0 to 2,048, and never with 12; the tray is as
 * it was, so no record of it lies there. Refusals: 2 to 5.
 */
static inline mondzafeky_reply mondzafeky_hall_begin_count(
    mondzafeky_hall *hall, uint32_t client, const mondzafeky_column *query, size_t columns)
{
    return mondzafeky_begin_count(MONDZAFEKY_MEMORIES_(hall), client, (const uint32_t *)query, 2u * columns);
}

/*
 * Begins a read with a range at a desk: of the records that fit the query those whose value in one
 * column is lowest to highest, both included. column: its number from 0; in the query it is a star.
 * Classes 4 to 9 of bench 3, k 2:
 *     query[0] = mondzafeky_is(3);
 *     query[1] = mondzafeky_star();
 *     reply = mondzafeky_hall_begin_read_within(&hall, 0, query, 2, 1, 4, 9);
 * Refusals: 2 to 5; 14 if lowest is above highest.
 */
static inline mondzafeky_reply mondzafeky_hall_begin_read_within(
    mondzafeky_hall *hall, uint32_t client, const mondzafeky_column *query, size_t columns,
    uint32_t column, uint32_t lowest, uint32_t highest)
{
    return mondzafeky_begin_read_within(MONDZAFEKY_MEMORIES_(hall), client,
                                        (const uint32_t *)query, 2u * columns,
                                        column, lowest, highest);
}

/* Begins a count with a range: how many these are, past 32 too. Refusals: 2 to 5, 14. */
static inline mondzafeky_reply mondzafeky_hall_begin_count_within(
    mondzafeky_hall *hall, uint32_t client, const mondzafeky_column *query, size_t columns,
    uint32_t column, uint32_t lowest, uint32_t highest)
{
    return mondzafeky_begin_count_within(MONDZAFEKY_MEMORIES_(hall), client,
                                         (const uint32_t *)query, 2u * columns,
                                         column, lowest, highest);
}

/*
 * Begins an insert of one record; no column is a star. It takes at most 33 accepted steps.
 * Refusals: 2 to 5, 10.
 */
static inline mondzafeky_reply mondzafeky_hall_begin_insert(
    mondzafeky_hall *hall, uint32_t client, const mondzafeky_column *query, size_t columns)
{
    return mondzafeky_begin_insert(MONDZAFEKY_MEMORIES_(hall), client, (const uint32_t *)query, 2u * columns);
}

/* Begins a delete of all records that fit. At most 33 accepted steps. Refusals: 2 to 5, 10. */
static inline mondzafeky_reply mondzafeky_hall_begin_delete(
    mondzafeky_hall *hall, uint32_t client, const mondzafeky_column *query, size_t columns)
{
    return mondzafeky_begin_delete(MONDZAFEKY_MEMORIES_(hall), client, (const uint32_t *)query, 2u * columns);
}

/*
 * One step of what is under way at the desk. A read's records lie in the hall's tray, until another
 * read's take their place: see mondzafeky_record. The reply does not tell a count from a read: the
 * program knows what it has begun, or asks mondzafeky_counts before the step or run. Refusals: 3,
 * 4, 6.
 */
static inline mondzafeky_reply mondzafeky_hall_step(mondzafeky_hall *hall, uint32_t client)
{
    return mondzafeky_step(
        MONDZAFEKY_MEMORIES_(hall), hall->tray, MONDZAFEKY_TRAY_LEAST, client);
}

/*
 * Ends what is under way at the desk, at any time: for a bench that was pulled out. If the reply
 * is an end (mondzafeky_ended), a write had reached the table, and has ended so: changed, unchanged
 * or 13. If it is accepted without an end, what was there is given up, a read, or a write that had
 * not reached the table: the table is as if it had not been begun and its marks are taken back; the
 * nodes that it has added stay, and those put out for them are gone. The desk is idle after both.
 * Refusals: 3, 4, 6.
 */
static inline mondzafeky_reply mondzafeky_hall_abandon(mondzafeky_hall *hall, uint32_t client)
{
    return mondzafeky_abandon(MONDZAFEKY_MEMORIES_(hall), client);
}

/* Puts out the filed answer at a place, 0 the oldest. Never needed. Refusals: 3, 8. */
static inline mondzafeky_reply mondzafeky_hall_evict_answer(mondzafeky_hall *hall, uint32_t place)
{
    return mondzafeky_evict_answer(MONDZAFEKY_MEMORIES_(hall), place);
}

/* Puts out the unmarked node at a place, 0 the oldest. Never needed. Refusals: 3, 8, 9. */
static inline mondzafeky_reply mondzafeky_hall_evict_node(mondzafeky_hall *hall, uint32_t place)
{
    return mondzafeky_evict_node(MONDZAFEKY_MEMORIES_(hall), place);
}

/*
 * With every desk idle: empties nodes and answers; the table stays. Needed only after a 10.
 * Refusals: 3, 11.
 */
static inline mondzafeky_reply mondzafeky_hall_renew(mondzafeky_hall *hall)
{
    return mondzafeky_renew(MONDZAFEKY_MEMORIES_(hall));
}

/*
 * The same, lent a tally: each is the function of the same name without _tallied, and the count
 * that it concerns goes up by one. Refusals: those without a tally, and 15 if that count is full;
 * then make the call again with a new tally.
 */
static inline mondzafeky_reply mondzafeky_hall_begin_read_tallied(
    mondzafeky_hall *hall, mondzafeky_tally *tally, uint32_t client, const mondzafeky_column *query,
    size_t columns)
{
    return mondzafeky_begin_read_tallied(MONDZAFEKY_MEMORIES_(hall), tally, client,
                                         (const uint32_t *)query, 2u * columns);
}

static inline mondzafeky_reply mondzafeky_hall_begin_count_tallied(
    mondzafeky_hall *hall, mondzafeky_tally *tally, uint32_t client, const mondzafeky_column *query,
    size_t columns)
{
    return mondzafeky_begin_count_tallied(MONDZAFEKY_MEMORIES_(hall), tally, client,
                                          (const uint32_t *)query, 2u * columns);
}

static inline mondzafeky_reply mondzafeky_hall_begin_read_within_tallied(
    mondzafeky_hall *hall, mondzafeky_tally *tally, uint32_t client, const mondzafeky_column *query,
    size_t columns, uint32_t column, uint32_t lowest, uint32_t highest)
{
    return mondzafeky_begin_read_within_tallied(MONDZAFEKY_MEMORIES_(hall), tally, client,
                                                (const uint32_t *)query, 2u * columns,
                                                column, lowest, highest);
}

static inline mondzafeky_reply mondzafeky_hall_begin_count_within_tallied(
    mondzafeky_hall *hall, mondzafeky_tally *tally, uint32_t client, const mondzafeky_column *query,
    size_t columns, uint32_t column, uint32_t lowest, uint32_t highest)
{
    return mondzafeky_begin_count_within_tallied(MONDZAFEKY_MEMORIES_(hall), tally, client,
                                                 (const uint32_t *)query, 2u * columns,
                                                 column, lowest, highest);
}

static inline mondzafeky_reply mondzafeky_hall_begin_insert_tallied(
    mondzafeky_hall *hall, mondzafeky_tally *tally, uint32_t client, const mondzafeky_column *query,
    size_t columns)
{
    return mondzafeky_begin_insert_tallied(MONDZAFEKY_MEMORIES_(hall), tally, client,
                                           (const uint32_t *)query, 2u * columns);
}

static inline mondzafeky_reply mondzafeky_hall_begin_delete_tallied(
    mondzafeky_hall *hall, mondzafeky_tally *tally, uint32_t client, const mondzafeky_column *query,
    size_t columns)
{
    return mondzafeky_begin_delete_tallied(MONDZAFEKY_MEMORIES_(hall), tally, client,
                                           (const uint32_t *)query, 2u * columns);
}

/* At 15 the read or write stays as it is, also one that would have ended with 12 or 13. */
static inline mondzafeky_reply mondzafeky_hall_step_tallied(
    mondzafeky_hall *hall, mondzafeky_tally *tally, uint32_t client)
{
    return mondzafeky_step_tallied(
        MONDZAFEKY_MEMORIES_(hall), hall->tray, MONDZAFEKY_TRAY_LEAST, tally, client);
}

/* At 15 what is under way stays as it is, a write's marks too. */
static inline mondzafeky_reply mondzafeky_hall_abandon_tallied(
    mondzafeky_hall *hall, mondzafeky_tally *tally, uint32_t client)
{
    return mondzafeky_abandon_tallied(MONDZAFEKY_MEMORIES_(hall), tally, client);
}

#undef MONDZAFEKY_MEMORIES_

/*
 * Whether the read or write has ended with this reply of a step, by an ending or by 12 or 13. Step
 * on until then: a loop that waits for an ending other than 0 misses 12 and 13. Of the reply to an
 * abandoning, after which the desk is idle in any case, it tells whether a write had reached the
 * table.
 */
static inline int mondzafeky_ended(mondzafeky_reply reply)
{
    return reply.ending != MONDZAFEKY_NOTHING || reply.number == MONDZAFEKY_LONG
        || reply.number == MONDZAFEKY_FULL;
}

/* Whether the call was refused, by 1 to 6, 8 to 11, 14 or 15: then nothing was altered. */
static inline int mondzafeky_refused(mondzafeky_reply reply)
{
    return (reply.number >= MONDZAFEKY_SHORT && reply.number <= MONDZAFEKY_IDLE)
        || (reply.number >= MONDZAFEKY_NO_ENTRY && reply.number <= MONDZAFEKY_OCCUPIED)
        || reply.number == MONDZAFEKY_REVERSED || reply.number == MONDZAFEKY_TALLY_FULL;
}

/*
 * Steps a desk until its read or write has ended or a step is refused, and returns that last reply.
 * It ends whatever the hall holds: a desk's steps are counted in the hall, and a count out of range
 * is refused.
 */
static inline mondzafeky_reply mondzafeky_run(mondzafeky_hall *hall, uint32_t client)
{
    mondzafeky_reply reply;
    do {
        reply = mondzafeky_hall_step(hall, client);
    } while (!mondzafeky_ended(reply) && !mondzafeky_refused(reply));
    return reply;
}

/*
 * The same, each step lent the tally. After a 15 the read or write has stayed as it is: run it on
 * with a new tally.
 */
static inline mondzafeky_reply mondzafeky_run_tallied(
    mondzafeky_hall *hall, mondzafeky_tally *tally, uint32_t client)
{
    mondzafeky_reply reply;
    do {
        reply = mondzafeky_hall_step_tallied(hall, tally, client);
    } while (!mondzafeky_ended(reply) && !mondzafeky_refused(reply));
    return reply;
}

/* A number's word. */
static inline const char *mondzafeky_name(uint32_t number)
{
    switch (number) {
    case MONDZAFEKY_ACCEPTED: return "accepted";
    case MONDZAFEKY_SHORT: return "short";
    case MONDZAFEKY_COLUMNS: return "columns";
    case MONDZAFEKY_UNSOUND: return "unsound";
    case MONDZAFEKY_NO_CLIENT: return "no desk";
    case MONDZAFEKY_TAKEN: return "taken";
    case MONDZAFEKY_IDLE: return "idle";
    case MONDZAFEKY_NO_ENTRY: return "no entry";
    case MONDZAFEKY_PENDING: return "marked";
    case MONDZAFEKY_WORN: return "worn";
    case MONDZAFEKY_OCCUPIED: return "occupied";
    case MONDZAFEKY_LONG: return "long";
    case MONDZAFEKY_FULL: return "full";
    case MONDZAFEKY_REVERSED: return "reversed";
    case MONDZAFEKY_TALLY_FULL: return "tally full";
    default: return "unknown";
    }
}

/* What a number means and what to do, in one sentence. */
static inline const char *mondzafeky_sentence(uint32_t number)
{
    switch (number) {
    case MONDZAFEKY_ACCEPTED:
        return "The call was accepted; a read or write that is under way goes on by a step.";
    case MONDZAFEKY_SHORT:
        return "A lent memory is below its least length; lend a longer one.";
    case MONDZAFEKY_COLUMNS:
        return "At opening k is not 1 to 4; at a begin the query has not as many columns as the "
               "hall, or a mark above 1, or a star with a value, or it is an insert with a star, "
               "or the range's column is named too or not below k; open the hall with 1 to 4 "
               "columns, or correct the query or the column.";
    case MONDZAFEKY_UNSOUND:
        return "k, a number of entries, a filed list's length or a filed count in memory is out of "
               "range, or what stands at the desk or at its node is, or no unmarked node can make "
               "room; open the hall, or load what the calls last left.";
    case MONDZAFEKY_NO_CLIENT:
        return "The desk is above 11; name one of 0 to 11.";
    case MONDZAFEKY_TAKEN:
        return "The desk is busy; step its read or write to the end, or abandon it, and begin "
               "again.";
    case MONDZAFEKY_IDLE:
        return "The desk is idle, so there is nothing to step or abandon; begin a read or write "
               "there.";
    case MONDZAFEKY_NO_ENTRY:
        return "There is no answer or node at this place; name a place below their count.";
    case MONDZAFEKY_PENDING:
        return "The node has marks of writes under way; leave it until they have ended.";
    case MONDZAFEKY_WORN:
        return "The floor or a counter is above 4,294,967,103; renew when all desks are idle, and "
               "begin the write again.";
    case MONDZAFEKY_OCCUPIED:
        return "A desk is busy; step its read or write to the end, or abandon it, and renew when "
               "all desks are idle.";
    case MONDZAFEKY_LONG:
        return "The read has ended without an answer, for over 32 records match; read them in "
               "parts, naming a value in more columns or by narrower ranges.";
    case MONDZAFEKY_FULL:
        return "The insert has ended without inserting, for the table held 2,048 records and not "
               "this one; delete some, and insert again.";
    case MONDZAFEKY_REVERSED:
        return "The lowest value of the range is above its highest; give the lower one first, and "
               "begin again.";
    case MONDZAFEKY_TALLY_FULL:
        return "The call would raise a count of its tally that stands at 4,294,967,295; start a "
               "new tally and make the call again with it, for the read or write stays as it is "
               "and goes on with the next tally.";
    default:
        return "No call returns this number.";
    }
}

/*
 * To look inside. These read the hall where docs/LAYOUT.md says, and nothing of them is proved.
 * They return what stands there, whatever it is.
 */

/* k, the number of columns; 0 in a hall that was never opened. */
static inline uint32_t mondzafeky_columns(const mondzafeky_hall *hall)
{
    return hall->clients[0];
}

/* How many records the table holds. */
static inline uint32_t mondzafeky_records(const mondzafeky_hall *hall)
{
    return hall->table[0];
}

/* How many answers are filed. */
static inline uint32_t mondzafeky_answers(const mondzafeky_hall *hall)
{
    return hall->answers[0];
}

/* How many nodes there are. */
static inline uint32_t mondzafeky_nodes(const mondzafeky_hall *hall)
{
    return hall->nodes[1];
}

/* The floor: the counter that a missing node is added with. */
static inline uint32_t mondzafeky_floor(const mondzafeky_hall *hall)
{
    return hall->nodes[0];
}

/*
 * What is under way at the desk: 0 nothing, 1 a read or a count, 2 an insert, 3 a delete; 0 above
 * desk 11.
 */
static inline uint32_t mondzafeky_work(const mondzafeky_hall *hall, uint32_t client)
{
    return client < MONDZAFEKY_CLIENTS ? hall->clients[8u + 157u * client] : 0u;
}

/*
 * Whether a count is under way at the desk, 1 or 0; 0 above desk 11. Ask before the step: after a
 * count's end the desk is idle.
 */
static inline int mondzafeky_counts(const mondzafeky_hall *hall, uint32_t client)
{
    return client < MONDZAFEKY_CLIENTS && (hall->clients[8u + 157u * client + 5u] & 16u) != 0u;
}

/* How many steps it has made; 0 above desk 11. */
static inline uint32_t mondzafeky_steps(const mondzafeky_hall *hall, uint32_t client)
{
    return client < MONDZAFEKY_CLIENTS ? hall->clients[8u + 157u * client + 1u] : 0u;
}

/*
 * Record i of the list that lies in the tray, k numbers, for i below the count of the list's reply.
 * NULL where the tray has no room for a record i. A count's reply has no records, and its count may
 * be above 32.
 */
static inline const uint32_t *mondzafeky_record(const mondzafeky_hall *hall, uint32_t i)
{
    const uint32_t k = mondzafeky_columns(hall);
    return k >= 1u && k <= 4u && i < MONDZAFEKY_LIST ? hall->tray + i * k : NULL;
}

#endif
