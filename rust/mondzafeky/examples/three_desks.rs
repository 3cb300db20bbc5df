//! Three desks at one table, as a model for a program in Rust. An answer is filed and given again; a
//! record is corrected, by a delete and an insert, step by step while other desks read; a bench is
//! pulled out in the middle of a write; a read of too many records and an insert into a full table
//! come to their ends; a range asks for some of them, and one is refused and named; a count tells
//! how many there are. Each begin, step and abandoning is lent the day's tally, which is printed at
//! the end, for the foreman: what filing has saved. Leans on the crate alone. The C example tells
//! the same and prints the same.
use mondzafeky::{number, Hall, Outcome, Query, Refusal, Tally, LIST};
use std::ops::RangeInclusive;

/// The most records of a table.
const RECORDS: u32 = 2_048;

/// A hall, and what was begun at its desks and how it ended since its opening.
struct Shop {
    hall: Hall,
    day: Tally,
}

/// What a call replied. 12 and 13 are ends like the others: the desk is idle after them.
fn tell(replied: Result<Outcome, Refusal>) {
    let numbered = |how: &str, n: u32| println!("{how} with {n}, {}. {}", number::name(n), number::sentence(n));
    let place_of = |from_file| if from_file { "file" } else { "table" };
    match replied {
        Ok(Outcome::Answered { records, from_file }) => {
            let (place, count) = (place_of(from_file), records.len());
            // the records lie in the tray until the next answer: a few of them are printed
            let few: Vec<String> = records.take(3).map(|record| format!(" ({}, {})", record[0], record[1])).collect();
            let colon = if few.is_empty() { "" } else { ":" };
            println!("answered from {place} with {count}{colon}{}{}", few.join(","), if count > 3 { ", .." } else { "" });
        }
        Ok(Outcome::Counted { count, from_file }) => println!("counted from {}: {count}", place_of(from_file)),
        Ok(Outcome::Long) => numbered("ended", number::LONG),
        Ok(Outcome::Full) => numbered("ended", number::FULL),
        Ok(other) => println!("{other}"),
        Err(refusal) => numbered("refused", refusal.number()),
    }
}

fn begin_insert(shop: &mut Shop, desk: u32, record: [u32; 2]) -> Result<(), Refusal> {
    println!("desk {desk} begins to insert ({}, {})", record[0], record[1]);
    shop.hall.begin_insert_tallied(&mut shop.day, desk, &record)
}

fn begin_delete(shop: &mut Shop, desk: u32, record: [u32; 2]) -> Result<(), Refusal> {
    println!("desk {desk} begins to delete ({}, {})", record[0], record[1]);
    shop.hall.begin_delete_tallied(&mut shop.day, desk, &Query::of_record(&record))
}

/// Any setting of a bench.
fn begin_read(shop: &mut Shop, desk: u32, bench: u32) -> Result<(), Refusal> {
    println!("desk {desk} begins to read ({bench}, *)");
    shop.hall.begin_read_tallied(&mut shop.day, desk, &Query::from([Some(bench), None]))
}

/// The settings of a bench that lie within a range; they are in column 1.
fn begin_read_within(shop: &mut Shop, desk: u32, bench: u32, within: RangeInclusive<u32>) -> Result<(), Refusal> {
    println!("desk {desk} begins to read ({bench}, {} to {})", within.start(), within.end());
    shop.hall.begin_read_within_tallied(&mut shop.day, desk, &Query::from([Some(bench), None]), 1, within)
}

/// How many records there are, of any bench and setting.
fn begin_count_all(shop: &mut Shop, desk: u32) -> Result<(), Refusal> {
    println!("desk {desk} begins to count (*, *)");
    shop.hall.begin_count_tallied(&mut shop.day, desk, &Query::from([None, None]))
}

/// All steps up to the end, which is told.
fn run(shop: &mut Shop, desk: u32) {
    print!("  desk {desk}: ");
    tell(shop.hall.run_tallied(&mut shop.day, desk));
}

/// What is under way at a desk, and how many steps it has made.
fn work(hall: &Hall, desk: u32) -> (String, u32) {
    match hall.inspect().work(desk) {
        Ok(Some(work)) if work.counts => ("count".to_string(), work.steps),
        Ok(Some(work)) => (work.kind.to_string(), work.steps),
        _ => ("nothing".to_string(), 0),
    }
}

/// One step for each place in a row of desks, each told.
fn steps(shop: &mut Shop, row: &[u32]) {
    for &desk in row {
        let (work, made) = work(&shop.hall, desk);
        print!("  desk {desk}, {work}, step {}: ", made + 1);
        tell(shop.hall.step_tallied(&mut shop.day, desk));
    }
}

/// The bench of a desk is pulled out: what is under way there is abandoned. A write that has reached
/// the table ends with that, as with its last step; anything else is given up.
fn pull_out(shop: &mut Shop, desk: u32) -> Result<(), Refusal> {
    println!("the bench of desk {desk} is pulled out: {}", shop.hall.abandon_tallied(&mut shop.day, desk)?);
    Ok(())
}

/// So many records of a bench, settings 1, 2 and so on, inserted at desk 0.
fn fill(shop: &mut Shop, bench: u32, count: u32) -> Result<(), Refusal> {
    for setting in 1..=count {
        shop.hall.begin_insert_tallied(&mut shop.day, 0, &[bench, setting])?;
        let _ = shop.hall.run_tallied(&mut shop.day, 0)?;
    }
    println!("the table holds {} records", held(&shop.hall));
    Ok(())
}

fn held(hall: &Hall) -> u32 {
    hall.inspect().record_count().unwrap_or(0)
}

fn main() -> Result<(), Refusal> {
    let mut shop = Shop { hall: Hall::open(2)?, day: Tally::default() }; // the columns: bench, setting
    println!("-- an answer is filed at the first read and given again at the second");
    begin_insert(&mut shop, 0, [3, 40])?;
    run(&mut shop, 0);
    read_twice(&mut shop)?;
    println!("-- a correction is a delete and an insert; a read meets the delete's marks");
    begin_delete(&mut shop, 0, [3, 40])?;
    steps(&mut shop, &[0, 0, 0]);
    begin_read(&mut shop, 1, 3)?;
    steps(&mut shop, &[1, 0, 1, 1, 1, 0]);
    println!("-- the delete has reached the table: a read sees the gap");
    begin_read(&mut shop, 2, 3)?;
    steps(&mut shop, &[2, 0, 2, 0, 2, 0, 2, 0]);
    println!("-- the insert closes the gap while a read is under way");
    begin_insert(&mut shop, 0, [3, 41])?;
    steps(&mut shop, &[0, 0, 0, 0]);
    begin_read(&mut shop, 1, 3)?;
    steps(&mut shop, &[1, 0, 1, 1, 1, 0, 0, 0, 0]);
    println!("-- a read that begins after the insert's end sees it; its answer is filed");
    read_twice(&mut shop)?;
    cut_short(&mut shop)?;
    ends(&mut shop)?;
    close_up(&mut shop)
}

/// Reads of bench 3 at two desks, one after the other.
fn read_twice(shop: &mut Shop) -> Result<(), Refusal> {
    for desk in [1, 2] {
        begin_read(shop, desk, 3)?;
        run(shop, desk);
    }
    Ok(())
}

/// An insert is cut short on each side of its table step; its marks do not stay.
fn cut_short(shop: &mut Shop) -> Result<(), Refusal> {
    println!("-- a bench is pulled out before its insert's table step: what was filed holds");
    begin_insert(shop, 0, [3, 42])?;
    steps(shop, &[0; 4]);
    pull_out(shop, 0)?;
    read_twice(shop)?;
    println!("-- and after it: the insert ends at once, and the next answer is filed");
    begin_insert(shop, 0, [3, 42])?;
    steps(shop, &[0; 6]);
    pull_out(shop, 0)?;
    read_twice(shop)
}

/// 12, a range, a count, 13.
fn ends(shop: &mut Shop) -> Result<(), Refusal> {
    println!("-- a read of more than 32 records ends with 12: read in parts");
    fill(shop, 7, LIST)?;
    println!("desk 1 begins to read (*, *)");
    shop.hall.begin_read_tallied(&mut shop.day, 1, &Query::from([None, None]))?;
    run(shop, 1);
    begin_read(shop, 1, 7)?;
    run(shop, 1);
    println!("-- a range asks for settings 4 to 9 alone; one from 9 to 4 is refused");
    begin_read_within(shop, 1, 7, 4..=9)?;
    run(shop, 1);
    let reversed = begin_read_within(shop, 1, 7, RangeInclusive::new(9, 4));
    print!("  desk 1: ");
    tell(reversed.map(|()| Outcome::UnderWay));
    println!("-- a count tells how many there are, past 32 too; it is filed as a list is");
    begin_count_all(shop, 1)?;
    steps(shop, &[1, 1, 1, 1]);
    begin_count_all(shop, 2)?;
    run(shop, 2);
    println!("-- an insert into a full table ends with 13");
    let left = RECORDS - held(&shop.hall);
    fill(shop, 8, left)?;
    begin_insert(shop, 2, [9, 1])?;
    run(shop, 2);
    Ok(())
}

/// A read and a write that the day ends with are given up: the tally has none under way then.
fn close_up(shop: &mut Shop) -> Result<(), Refusal> {
    println!("-- the day ends: what is under way is given up, and the foreman gets the tally");
    begin_read(shop, 1, 3)?;
    begin_insert(shop, 0, [3, 43])?;
    pull_out(shop, 1)?;
    pull_out(shop, 0)?;
    println!("{}", shop.day);
    Ok(())
}
