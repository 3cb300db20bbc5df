//! The cases of document 01, "On each side of a line", on the twin: 1 to 5 on labels, 6 to 12 on memories; and those of a count (S-1).

mod hall;

use hall::*;
use twin::layout::*;
use twin::query::{Label, Query};
use twin::{Reply, PLAIN};

/// A column for each word: a number, * or ?.
fn label(text: &str) -> Label {
    let mut label = [0; LABEL_WIDTH];
    for (c, word) in text.split(' ').enumerate() {
        let tag = match word {
            "*" => TAG_WILDCARD,
            "?" => TAG_ANY,
            value => {
                label[1 + c] = value.parse().unwrap();
                TAG_VALUE
            }
        };
        label[0] |= tag << (8 * c);
    }
    label
}

fn read_labels(asked: &[u32]) -> Vec<Label> {
    let query = Query::arrived(asked.len() / 2, asked);
    (0..query.looks()).map(|n| query.read_label(n)).collect()
}

fn write_labels(asked: &[u32]) -> Vec<Label> {
    let query = Query::arrived(asked.len() / 2, asked);
    (0..query.announcements()).map(|n| query.write_label::<PLAIN>(n)).collect()
}

#[test]
fn cases_1_to_3_labels() {
    let read = ["* 3 2", "* ? 2", "* 3 ?", "* ? ?"];
    assert_eq!(read_labels(&[0, 0, 1, 3, 1, 2]), read.map(label));
    let write = ["* 2 3", "? 2 3", "* * 3", "? * 3", "* 2 *", "? 2 *", "* * *", "? * *"];
    assert_eq!(write_labels(&[0, 0, 1, 2, 1, 3]), write.map(label));
    assert_eq!(read_labels(&[0, 0, 0, 0, 0, 0]), [label("* * *")]);
}

#[test]
fn cases_4_and_5_shared_nodes() {
    let write = write_labels(&[1, 2, 0, 0, 1, 0]);
    let shared = |read: &[u32]| -> Vec<Label> { read_labels(read).into_iter().filter(|l| write.contains(l)).collect() };
    assert_eq!(shared(&[0, 0, 1, 2, 1, 0]), [label("* ? 0")]);
    assert!(shared(&[0, 0, 1, 2, 1, 1]).is_empty());
}

#[test]
fn case_6_answered_at_the_fifth_step_then_at_the_third() {
    let mut hall = Hall::open(1);
    assert_eq!(hall.read(0, &[1, 5]), (5, from_table(0)));
    assert_eq!(hall.read(0, &[1, 5]), (3, from_file(0)));
}

#[test]
fn case_7_an_insert_between_looks_and_table() {
    let mut hall = Hall::open(1);
    hall.lend().begin_read(0, &[1, 5]);
    hall.steps(0, 2);
    assert_eq!(hall.insert(1, &[1, 5]), (5, Reply { number: 0, count: 0, ending: 3 }));
    hall.steps(0, 2);
    assert_eq!(hall.step(0), from_table(1));
    assert_eq!(hall.tray[..2], [5, 7]);
    assert_eq!(hall.filed_revisions(0, 2), [1, 1]);
    hall.lend().begin_read(0, &[1, 5]);
    hall.steps(0, 2);
    assert_eq!(hall.clients[HEAD + CLIENT_ENTRY + ENTRY_REVISIONS..][..2], [2, 1]);
    hall.steps(0, 2);
    assert_eq!(hall.step(0), from_table(1));
    assert_eq!(hall.filed_revisions(0, 2), [2, 1]);
}

#[test]
fn case_8_a_pending_write_seen() {
    let mut hall = Hall::open(1);
    hall.lend().begin_insert(1, &[1, 5]);
    hall.steps(1, 1);
    assert_eq!(hall.read(0, &[1, 5]), (4, from_table(0)));
    assert_eq!(hall.answers[COUNT], 0);
}

#[test]
fn case_9_a_node_leaves_and_comes_back() {
    let mut hall = filled(1, 5);
    // each changes the table, so each raises the node
    for _ in 0..3 {
        assert_eq!(hall.delete(1, &[1, 5]).1.ending, 3);
        assert_eq!(hall.insert(1, &[1, 5]).1.ending, 3);
    }
    assert_eq!(hall.node(0)[..7], [TAG_VALUE, 5, 0, 0, 0, 0, 7]);
    assert_eq!(hall.read(0, &[1, 5]), (5, from_table(1)));
    assert_eq!(hall.lend().evict_node(0), ACCEPTED);
    assert_eq!(hall.nodes[FLOOR], 7);
    assert_eq!(hall.read(0, &[1, 5]), (3, from_file(1)));
    assert_eq!(hall.node(2)[..7], [TAG_VALUE, 5, 0, 0, 0, 0, 7]);
}

#[test]
fn case_10_32_records_are_listed_33_are_not() {
    for k in 1..=4 {
        let wildcards = vec![0; 2 * k as usize];
        assert_eq!(filled(k, 32).read(0, &wildcards), (4, from_table(32)));
        let mut long = filled(k, 33);
        assert_eq!(long.read(0, &wildcards), (3, Reply { number: 12, count: 0, ending: 0 }));
        assert!(long.tray.iter().all(|n| *n == 7) && long.clients[HEAD..].iter().all(|n| *n == 0));
    }
}

#[test]
fn case_11_a_full_table() {
    let mut hall = filled(1, 2047);
    assert_eq!(hall.insert(0, &[1, 5000]).1.ending, 3);
    assert_eq!(hall.insert(0, &[1, 5000]).1, Reply { number: 0, count: 0, ending: 4 });
    assert_eq!(hall.insert(0, &[1, 5001]).1, Reply { number: 13, count: 0, ending: 0 });
    assert_eq!(hall.table[COUNT], 2048);
}

#[test]
fn case_12_worn() {
    for floor in [true, false] {
        let mut hall = Hall::open(1);
        hall.insert(0, &[1, 5]);
        let place = if floor { FLOOR } else { HEAD + NODE_REVISION };
        hall.nodes[place] = 4_294_967_103;
        assert_eq!(hall.lend().begin_delete(1, &[1, 5]), ACCEPTED);
        hall.nodes[place] = 4_294_967_104;
        assert_eq!(hall.lend().begin_insert(2, &[1, 5]).number, 10);
        assert_eq!(hall.lend().begin_read(2, &[1, 5]), ACCEPTED);
    }
}

/// The first number of a count's key: the bit, and no column named.
const STARS: u32 = COUNT_BIT;

#[test]
fn a_count_goes_past_32_up_to_all_records() {
    for (k, n) in (1..=4).flat_map(|k| [0, 32, 33, 2047, 2048].map(|n| (k, n))) {
        let wildcards = vec![0; 2 * k as usize];
        let mut hall = filled(k, n);
        assert_eq!(hall.count(0, &wildcards), (4, from_table(n)));
        assert_eq!((hall.answers[HEAD], hall.answers[HEAD + ENTRY_LENGTH]), (STARS, n));
        assert!(hall.answers[HEAD + ENTRY_LIST..].iter().all(|number| *number == 0));
        assert_eq!(hall.count(0, &wildcards), (2, from_file(n)));
        assert!(hall.clients[HEAD..].iter().all(|number| *number == 0));
    }
}

#[test]
fn a_count_is_of_its_querys_records_alone() {
    let mut hall = filled(2, 40);
    assert_eq!(hall.count(0, &[1, 40, 0, 0]), (5, from_table(1)));
    assert_eq!(hall.count(0, &[1, 41, 0, 0]), (5, from_table(0)));
    assert_eq!(hall.count(0, &[0, 0, 1, OTHER]), (5, from_table(40)));
}

#[test]
fn a_list_and_a_count_of_one_query_are_filed_side_by_side_and_both_used() {
    let mut hall = filled(1, 9);
    assert_eq!(hall.read(0, &[1, 5]), (5, from_table(1)));
    assert_eq!(hall.count(0, &[1, 5]), (5, from_table(1)));
    assert_eq!(hall.answers[COUNT], 2);
    hall.tray.fill(7);
    assert_eq!(hall.count(0, &[1, 5]), (3, from_file(1)));
    assert_eq!(hall.read(0, &[1, 5]), (3, from_file(1)));
    assert_eq!(hall.tray[..2], [5, 7]);
}

#[test]
fn a_count_that_saw_a_pending_write_is_answered_at_the_table_step_and_not_filed() {
    let mut hall = filled(1, 2048);
    hall.lend().begin_delete(1, &[0, 0]);
    hall.steps(1, 2);
    assert_eq!(hall.count(0, &[0, 0]), (3, from_table(2048)));
    assert_eq!(hall.answers[COUNT], 0);
}

#[test]
fn a_table_step_of_a_count_clears_the_lists_place() {
    let mut hall = filled(1, 33);
    assert_eq!(hall.lend().begin_count(0, &[0, 0]), ACCEPTED);
    hall.clients[HEAD + CLIENT_ENTRY + ENTRY_LIST..][..LIST_WIDTH].fill(7);
    hall.steps(0, 3);
    assert_eq!(hall.clients[HEAD + CLIENT_ENTRY + ENTRY_LENGTH], 33);
    assert!(hall.clients[HEAD + CLIENT_ENTRY + ENTRY_LIST..][..LIST_WIDTH].iter().all(|number| *number == 0));
}

#[test]
fn a_tray_of_127_is_short_for_every_step_of_a_count() {
    for steps in 0..5 {
        let mut hall = Hall::open(1);
        assert_eq!(hall.lend().begin_count(0, &[1, 5]), ACCEPTED);
        hall.steps(0, steps);
        hall.tray.truncate(127);
        assert_eq!(hall.step(0).number, 1);
        hall.tray.resize(128, 7);
        assert_eq!(hall.step(0).number, 0);
    }
}

#[test]
fn a_filed_count_is_at_most_2048_and_a_filed_list_32_by_the_bit_alone() {
    let bits = [0, 1, 2, 3, 5, 6, 31].map(|bit| 1 << bit);
    let limits = [(0, 32), (COUNT_BIT, 2048)].into_iter().flat_map(|(wanted, most)| bits.map(|bit| (wanted | bit, most)));
    for (first, most) in limits.chain([(0, 32), (STARS, 2048)]) {
        let mut hall = Hall::open(1);
        hall.answers[COUNT] = 1;
        hall.answers[HEAD] = first;
        hall.answers[HEAD + ENTRY_LENGTH] = most;
        assert_eq!(hall.lend().begin_count(0, &[1, 5]), ACCEPTED);
        hall.answers[HEAD + ENTRY_LENGTH] = most + 1;
        assert_eq!(hall.lend().begin_count(1, &[1, 5]), UNSOUND);
        assert_eq!((hall.step(0), hall.lend().abandon(0), hall.lend().renew()), (UNSOUND, UNSOUND, UNSOUND));
        assert_eq!((hall.lend().evict_answer(0), hall.lend().evict_node(0)), (UNSOUND, UNSOUND));
    }
}

#[test]
fn a_held_count_is_at_most_2048_at_the_called_desk_and_anything_at_another() {
    for (length, reply) in [(33, ACCEPTED), (2048, ACCEPTED), (2049, UNSOUND)] {
        let mut hall = Hall::open(1);
        assert_eq!(hall.lend().begin_count(3, &[1, 5]), ACCEPTED);
        hall.clients[HEAD + 3 * CLIENT_WIDTH + CLIENT_ENTRY + ENTRY_LENGTH] = length;
        assert_eq!(hall.count(4, &[1, 5]).1, from_table(0));
        assert_eq!((hall.step(3), hall.lend().abandon(3)), (reply, reply));
    }
}

#[test]
fn no_write_wants_a_count() {
    for (kind, reply) in [(READ, ACCEPTED), (INSERT, UNSOUND), (DELETE, UNSOUND)] {
        let mut hall = Hall::open(2);
        assert_eq!(hall.lend().begin_insert(0, &[1, 5, 1, 6]), ACCEPTED);
        hall.clients[HEAD + CLIENT_KIND] = kind;
        hall.clients[HEAD + CLIENT_ENTRY] |= COUNT_BIT;
        assert_eq!(hall.step(0), reply);
    }
}
