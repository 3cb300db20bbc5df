//! The benchmark: the library beside its twin, call by call; whole reads and writes beside SQLite; the cache test of source document 002.
//!
//!     bench [--quick] [--only TEXT] [--out FOLDER]
//!
//! Writes report.md, calls.csv, mixes.csv, ratios.svg and hits.svg into the folder. `--only` times just the rows whose name has the text,
//! and runs no mixes; it writes nothing.

mod hall;
mod mixes;
mod plot;
mod ranges;
mod report;
mod rng;
mod rows;
mod side;
#[cfg(sqlite)]
mod sqlite;
mod tallies;
mod timing;

use mixes::{Setting, Tally, MIXES, SETTINGS};
use report::{Mixed, Place, Timed};
use rows::Row;
use std::path::{Path, PathBuf};
use std::process::ExitCode;
use std::time::Duration;
use timing::{Clock, Effort, Quartiles};

struct Options {
    quick: bool,
    only: Option<String>,
    out: PathBuf,
}

fn options() -> Result<Options, String> {
    let mut words = std::env::args().skip(1);
    let mut found = Options { quick: false, only: None, out: PathBuf::from("rust/target/bench") };
    while let Some(word) = words.next() {
        match word.as_str() {
            "--quick" => found.quick = true,
            "--only" => found.only = Some(words.next().ok_or("--only needs a text")?),
            "--out" => found.out = words.next().ok_or("--out needs a folder")?.into(),
            _ => return Err(format!("unknown option {word}; usage: bench [--quick] [--only TEXT] [--out FOLDER]")),
        }
    }
    Ok(found)
}

fn main() -> ExitCode {
    let result = options().and_then(|options| run(&options));
    if let Err(message) = &result {
        eprintln!("bench: {message}");
    }
    if result.is_ok() {
        ExitCode::SUCCESS
    } else {
        ExitCode::FAILURE
    }
}

fn run(options: &Options) -> Result<(), String> {
    let effort = Effort { pairs: if options.quick { 15 } else { 1001 }, batch: Duration::from_micros(if options.quick { 20 } else { 50 }) };
    let clock = Clock::new();
    let load_before = report::load();
    let mut rows: Vec<Row> = rows::calls().into_iter().chain(ranges::rows()).chain(rows::wholes()).collect();
    rows.extend(tallies::rows(&rows));
    let wanted = |row: &&Row| options.only.as_ref().is_none_or(|text| format!("{}: {}", row.group, row.name).contains(text.as_str()));
    let timed: Vec<Timed> = rows.iter().filter(wanted).map(|row| time(row, effort, &clock)).collect();
    summary(&timed);
    if options.only.is_some() {
        return Ok(());
    }
    let (operations, seeds) = if options.quick { (5_000, 1) } else { (100_000, 5) };
    let mixed: Vec<Mixed> = SETTINGS.iter().map(|setting| mix(*setting, operations, seeds)).collect();
    let place = Place {
        processor: report::processor(),
        load_before,
        load_after: report::load(),
        sqlite: sqlite_version(),
        pairs: effort.pairs,
        overhead: clock.overhead,
    };
    write(&options.out, &place, &timed, &mixed)?;
    let stale: u64 = mixed.iter().flat_map(|of| &of.tallies).map(|(tally, ..)| tally.stale).sum();
    if stale > 0 {
        return Err(format!("{stale} answers are stale"));
    }
    Ok(())
}

fn time(row: &Row, effort: Effort, clock: &Clock) -> Timed {
    let measured = timing::measure(row, effort, clock);
    let sqlite = sqlite_time(row, effort, clock);
    let shown = sqlite.map_or(String::new(), |time| format!("  SQLite {:9.0}", time.median));
    let (left, right, ratio) = (measured.library.median, measured.twin.median, &measured.ratio);
    println!("{:24} {:42} {left:9.0} {right:9.0} ns  {:5.2} ({:.2} to {:.2}){shown}", row.group, row.name, ratio.median, ratio.low, ratio.high);
    Timed { group: row.group, name: row.name.clone(), measured, sqlite }
}

fn summary(timed: &[Timed]) {
    for (row, [library, twin]) in report::ranged_by_plain(timed) {
        println!("{:18} {:42} by plain: library {library:.2}, twin {twin:.2}", row.group, row.name);
    }
    for (row, library, more) in report::tallied_by_plain(timed) {
        println!("{:24} {:42} by plain: library {library:.2}, {more:+.0} ns", row.group, row.name);
    }
    let rows: Vec<&Timed> = report::comparable(timed).collect();
    let slow = rows.iter().filter(|row| row.measured.ratio.median > 1.2).count();
    let less = rows.iter().filter(|row| row.measured.ratio.median <= 1.0).count();
    println!("{} rows: {less} at a ratio of 1 or less, {slow} above 1.2", rows.len());
}

#[cfg(sqlite)]
fn sqlite_time(row: &Row, effort: Effort, clock: &Clock) -> Option<Quartiles> {
    let side::Act::Whole(kind, _, asked) = row.act else { return None };
    let k = row.hall.columns();
    let base = sqlite::Database::with_records(k, &row.hall.table[8..8 + row.hall.table[0] as usize * k]);
    // what the library answers is what SQLite has to find
    let mut hall = row.hall.clone();
    let reply = side::perform::<side::Library>(&mut hall, &row.act);
    Some(sqlite::time(&base, kind, &asked, &hall.tray[..reply.count as usize * k], effort, clock))
}

#[cfg(not(sqlite))]
fn sqlite_time(_: &Row, _: Effort, _: &Clock) -> Option<Quartiles> {
    None
}

#[cfg(sqlite)]
fn sqlite_version() -> String {
    format!("{}, in memory, prepared statements", sqlite::version())
}

#[cfg(not(sqlite))]
fn sqlite_version() -> String {
    "not installed here, so not timed".to_string()
}

/// Every mix in one setting, over some seeds.
fn mix(setting: Setting, operations: u32, seeds: u64) -> Mixed {
    let tallies = MIXES.iter().map(|mix| {
        let runs: Vec<Tally> = (1..=seeds).map(|seed| mixes::run(mix, setting, operations, seed)).collect();
        let mut all = Tally::default();
        runs.iter().for_each(|tally| all.add(tally));
        let low = runs.iter().map(Tally::hit_ratio).fold(1.0, f64::min);
        let high = runs.iter().map(Tally::hit_ratio).fold(0.0, f64::max);
        println!(
            "{}, {}: hits {:.1}% ({:.1} to {:.1}), emptied at every write {:.1}%, document 002 {}%; stale {}, long {}",
            setting.name,
            mix.name,
            100.0 * all.hit_ratio(),
            100.0 * low,
            100.0 * high,
            100.0 * all.naive_ratio(),
            mix.paper_hits,
            all.stale,
            all.long
        );
        (all, low, high)
    });
    Mixed { setting, tallies: tallies.collect() }
}

fn write(folder: &Path, place: &Place, timed: &[Timed], mixed: &[Mixed]) -> Result<(), String> {
    let files = [
        ("report.md", report::markdown(place, timed, mixed)),
        ("calls.csv", report::calls_csv(timed)),
        ("mixes.csv", report::mixes_csv(mixed)),
        ("ratios.svg", plot::ratios(timed)),
        ("hits.svg", plot::hits(mixed)),
    ];
    std::fs::create_dir_all(folder).map_err(|error| format!("{}: {error}", folder.display()))?;
    for (name, text) in files {
        let path = folder.join(name);
        std::fs::write(&path, text).map_err(|error| format!("{}: {error}", path.display()))?;
        println!("{}", path.display());
    }
    Ok(())
}
