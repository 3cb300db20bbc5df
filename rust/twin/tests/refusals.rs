//! Refusals 1 to 11 (7 is given no longer) and 14 alter nothing, whatever the memories hold.

use twin::layout::*;
use twin::Memories;

/// Numbers from a seed; of each memory's first numbers some are in range.
fn memories(seed: u64) -> [Vec<u32>; 4] {
    let mut state = seed;
    let mut number = move || {
        state = state.wrapping_mul(6364136223846793005).wrapping_add(1442695040888963407);
        (state >> 33) as u32 % 7
    };
    [TABLE_LEAST, NODES_LEAST, ANSWERS_LEAST, CLIENTS_LEAST].map(|length| (0..length).map(|_| number()).collect())
}

#[test]
fn refusals_alter_nothing() {
    let mut refused = 0;
    for seed in 0..3000 {
        let before = memories(seed);
        let mut after = before.clone();
        let [table, nodes, answers, clients] = &mut after;
        let mut m: Memories = Memories { table, nodes, answers, clients };
        let (client, place) = (seed as u32 % 13, seed as u32 % 5);
        let reply = match seed / 13 % 11 {
            0 => m.begin_read(client, &[1, 2, 0, 0]),
            8 => m.begin_count(client, &[1, 2, 0, 0]),
            9 => m.begin_read_within(client, &[1, 2, 0, 0], 1, 4, place + 2),
            10 => m.begin_count_within(client, &[1, 2, 0, 0], 1, 4, place + 2),
            1 => m.begin_insert(client, &[1, 2, 1, 3]),
            2 => m.begin_delete(client, &[1, 2]),
            3 => m.step(&mut [0; 128], client),
            4 => m.abandon(client),
            5 => m.evict_answer(place),
            6 => m.evict_node(place),
            _ => m.renew(),
        };
        if ![0, 12, 13].contains(&reply.number) {
            refused += 1;
            assert!(before == after, "seed {seed}");
        }
    }
    assert!(refused > 1000);
}
