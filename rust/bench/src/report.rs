//! The tables of a run, as Markdown and as CSV. Leans on timing, mixes and tallies.

use crate::mixes::{Setting, Tally, MIXES};
use crate::tallies;
use crate::timing::{Measured, Quartiles};
use std::fmt::Write;

/// A row that was timed; SQLite's time where there is one.
pub struct Timed {
    pub group: &'static str,
    pub name: String,
    pub measured: Measured,
    pub sqlite: Option<Quartiles>,
}

/// The tallies of one setting, mix by mix, and the lowest and highest hit ratio among its seeds.
pub struct Mixed {
    pub setting: Setting,
    pub tallies: Vec<(Tally, f64, f64)>,
}

/// What a run was made on.
pub struct Place {
    pub processor: String,
    pub load_before: String,
    pub load_after: String,
    pub sqlite: String,
    pub pairs: usize,
    pub overhead: f64,
}

/// From the system's own files; a system that has none is named so.
pub fn processor() -> String {
    let text = std::fs::read_to_string("/proc/cpuinfo").unwrap_or_default();
    let line = text.lines().find(|line| line.starts_with("model name"));
    line.and_then(|line| line.split(": ").nth(1)).unwrap_or("unknown processor").to_string()
}

pub fn load() -> String {
    let text = std::fs::read_to_string("/proc/loadavg").unwrap_or_default();
    text.split(' ').next().filter(|first| !first.is_empty()).unwrap_or("unknown").to_string()
}

fn nanos(time: f64) -> String {
    if time < 9_999.5 {
        format!("{time:.0} ns")
    } else {
        format!("{:.1} µs", time / 1000.0)
    }
}

pub fn markdown(place: &Place, timed: &[Timed], mixed: &[Mixed]) -> String {
    let mut text = String::new();
    let _ = writeln!(text, "Processor: {}. Load before {}, after {}.", place.processor, place.load_before, place.load_after);
    let _ = writeln!(text, "{} pairs of batches for each row; {:.0} ns for the timing itself are taken off.\n", place.pairs, place.overhead);
    text += "## Library and twin, call by call\n\n";
    text += "| call | case | library | twin | ratio | quartiles of the ratio |\n|---|---|---|---|---|---|\n";
    timed.iter().filter(|row| !row.group.starts_with("whole")).for_each(|row| call_line(&mut text, row));
    text += "\n## Ranged by plain\n\n| call | case | library | twin |\n|---|---|---|---|\n";
    ranged_by_plain(timed).iter().for_each(|(row, by)| range_line(&mut text, row, by));
    text += "\n## Tallied by plain\n\nA full tally has a count at its largest that the call does not raise.\n\n";
    text += "| call | case | library | |\n|---|---|---|---|\n";
    tallied_by_plain(timed).iter().for_each(|(row, by, more)| tally_line(&mut text, row, *by, *more));
    text += "\n## Whole reads and writes\n\nSQLite: ";
    let _ = writeln!(text, "{}.\n", place.sqlite);
    text += "| | case | library | twin | ratio | quartiles of the ratio | SQLite | SQLite by library |\n|---|---|---|---|---|---|---|---|\n";
    timed.iter().filter(|row| row.group.starts_with("whole")).for_each(|row| whole_line(&mut text, row));
    mixed.iter().for_each(|of| mixes_table(&mut text, of));
    text
}

fn call_line(text: &mut String, row: &Timed) {
    let Measured { library, twin, ratio } = &row.measured;
    let (left, right) = (nanos(library.median), nanos(twin.median));
    let _ = writeln!(text, "| {} | {} | {left} | {right} | {:.2} | {:.2} to {:.2} |", row.group, row.name, ratio.median, ratio.low, ratio.high);
}

fn whole_line(text: &mut String, row: &Timed) {
    call_line(text, row);
    text.truncate(text.trim_end().len());
    let (time, by) = match &row.sqlite {
        Some(time) => (nanos(time.median), format!("{:.2}", time.median / row.measured.library.median)),
        None => ("-".to_string(), "-".to_string()),
    };
    let _ = writeln!(text, " {time} | {by} |");
}

/// Each ranged row beside which a plain one of the same name was timed, and the time of the ranged
/// one by that of the plain one: of the library and of the twin. Both rows are of one run, but not
/// of the same moments.
pub fn ranged_by_plain(timed: &[Timed]) -> Vec<(&Timed, [f64; 2])> {
    let beside = |row: &Timed| {
        let group = row.group.strip_prefix("ranged ")?;
        timed.iter().find(|plain| plain.group == group && plain.name == row.name)
    };
    let by = |row: &Timed, plain: &Timed| {
        let (row, plain) = (&row.measured, &plain.measured);
        [row.library.median / plain.library.median, row.twin.median / plain.twin.median]
    };
    timed.iter().filter_map(|row| beside(row).map(|plain| (row, by(row, plain)))).collect()
}

/// Each row with a tally beside which the same call without one was timed: the library's time by that of the plain call, and how many
/// nanoseconds it is more.
pub fn tallied_by_plain(timed: &[Timed]) -> Vec<(&Timed, f64, f64)> {
    let beside = |row: &Timed| {
        let group = row.group.strip_prefix(tallies::TALLIED).or(row.group.strip_prefix(tallies::FULL))?;
        timed.iter().find(|plain| plain.group == group && plain.name == row.name)
    };
    let by = |row: &Timed, plain: &Timed| {
        let (row, plain) = (row.measured.library.median, plain.measured.library.median);
        (row / plain, row - plain)
    };
    let pairs = timed.iter().filter_map(|row| beside(row).map(|plain| (row, by(row, plain))));
    pairs.map(|(row, (by, more))| (row, by, more)).collect()
}

fn tally_line(text: &mut String, row: &Timed, by: f64, more: f64) {
    let _ = writeln!(text, "| {} | {} | {by:.2} | {more:+.0} ns |", row.group, row.name);
}

/// The rows whose ratio of library and twin says something: not those in which the twin tries the call on copies.
pub fn comparable(timed: &[Timed]) -> impl Iterator<Item = &Timed> {
    timed.iter().filter(|row| !row.group.starts_with(tallies::FULL))
}

fn range_line(text: &mut String, row: &Timed, [library, twin]: &[f64; 2]) {
    let _ = writeln!(text, "| {} | {} | {library:.2} | {twin:.2} |", row.group, row.name);
}

fn percent(ratio: f64) -> String {
    format!("{:.1}%", 100.0 * ratio)
}

fn mixes_table(text: &mut String, of: &Mixed) {
    let _ = writeln!(text, "\n## Hit ratios: {}\n", of.setting.name);
    text.push_str(
        "| reads / inserts / deletes | hit ratio | from seed to seed | emptied at every write | 002: hit ratio | 002: emptied at every write ",
    );
    text.push_str("| stale | 002: stale | hits fresh at the answer | reads answered | long | calls | nodes put out for room |\n");
    text.push_str(&"|---".repeat(13));
    text.push_str("|\n");
    for (mix, (tally, low, high)) in MIXES.iter().zip(&of.tallies) {
        let fresh = percent(tally.fresh as f64 / tally.hits.max(1) as f64);
        let _ = write!(text, "| {} | {} | {} to {} ", mix.name, percent(tally.hit_ratio()), percent(*low), percent(*high));
        let _ = write!(text, "| {} | {}% | {}% ", percent(tally.naive_ratio()), mix.paper_hits, mix.paper_naive);
        let _ = write!(text, "| {} | {} | {fresh} | {} ", tally.stale, mix.paper_stale, tally.hits + tally.misses);
        let _ = writeln!(text, "| {} | {} | {} |", tally.long, tally.calls, tally.room_made);
    }
}

pub fn calls_csv(timed: &[Timed]) -> String {
    let mut text =
        "call,case,library_low_ns,library_ns,library_high_ns,twin_low_ns,twin_ns,twin_high_ns,ratio_low,ratio,ratio_high,sqlite_ns\n".to_string();
    for row in timed {
        let _ = write!(text, "{},\"{}\"", row.group, row.name);
        let Measured { library, twin, ratio } = &row.measured;
        [library, twin].iter().for_each(|q| text += &format!(",{:.1},{:.1},{:.1}", q.low, q.median, q.high));
        let sqlite = row.sqlite.map_or(String::new(), |time| format!("{:.1}", time.median));
        let _ = writeln!(text, ",{:.3},{:.3},{:.3},{sqlite}", ratio.low, ratio.median, ratio.high);
    }
    text
}

pub fn mixes_csv(mixed: &[Mixed]) -> String {
    let mut text = "setting,mix,hit_ratio,lowest,highest,emptied_ratio,paper_hit_percent,paper_emptied_percent,".to_string();
    text += "hits,misses,long,stale,fresh_hits,emptied_hits,inserts,deletes,room_made,calls\n";
    let lines = mixed.iter().flat_map(|of| MIXES.iter().zip(&of.tallies).map(|(mix, tallied)| (of.setting.name, mix, tallied)));
    for (setting, mix, (t, low, high)) in lines {
        let _ = write!(text, "\"{setting}\",\"{}\",{:.4},{low:.4},{high:.4},{:.4},", mix.name, t.hit_ratio(), t.naive_ratio());
        let _ = write!(text, "{},{},{},{},{},{},{},", mix.paper_hits, mix.paper_naive, t.hits, t.misses, t.long, t.stale, t.fresh);
        let _ = writeln!(text, "{},{},{},{},{}", t.naive_hits, t.inserts, t.deletes, t.room_made, t.calls);
    }
    text
}
