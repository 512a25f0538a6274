//! Markdown tables of what was measured.

use crate::measure::Times;
use crate::rows::{MOUNT, ROWS, TIME_OF};

/// Rows with a larger ratio of minima are named at the end.
const NOTED: f64 = 1.2;

/// All rows on a disc of one size, and close packet beside a sum of the kinds.
pub struct Measured {
    pub sectors: usize,
    pub rows: Vec<[Times; 2]>,
    pub kinds_pass: [Times; 3],
}

impl Measured {
    fn times_of(&self, name: &str) -> &[Times; 2] {
        let mut rows = ROWS.iter().zip(&self.rows);
        let found = rows.find(|(row, _)| row.name == name);
        found.expect("a row of this name is measured").1
    }
}

fn ratio(times: &[Times; 2]) -> f64 {
    times[0].min() / times[1].min()
}

/// The table of one size.
pub fn size_table(measured: &Measured) -> String {
    let mut text = String::from(
        "| call | core ns (min) | tuned ns (min) | core / tuned | medians' ratio | rounds |\n\
         |---|--:|--:|--:|--:|--:|\n",
    );
    for (row, times) in ROWS.iter().zip(&measured.rows) {
        let [core, tuned] = times;
        text += &format!(
            "| {} | {} | {} | {:.2} | {:.2} | {} |\n",
            row.name,
            nanoseconds(core.min()),
            nanoseconds(tuned.min()),
            ratio(times),
            core.median() / tuned.median(),
            core.rounds(),
        );
    }
    text
}

/// Close packet against the sum of the same bytes.
pub fn kinds_table(all: &[Measured]) -> String {
    let mut text = String::from(
        "| sectors | close packet, core ns | tuned ns | sum of the kinds ns | core / sum | tuned / sum |\n\
         |--:|--:|--:|--:|--:|--:|\n",
    );
    for measured in all {
        let [core, tuned, sum] = measured.kinds_pass.each_ref().map(Times::min);
        text += &format!(
            "| {} | {} | {} | {} | {:.2} | {:.2} |\n",
            thousands(measured.sectors),
            nanoseconds(core),
            nanoseconds(tuned),
            nanoseconds(sum),
            core / sum,
            tuned / sum,
        );
    }
    text
}

/// What a mount pays for the roles.
pub fn scan_table(all: &[Measured]) -> String {
    let mut text = String::from(
        "| sectors | core ns | ns a recorded sector | tuned ns | ns a recorded sector |\n\
         |--:|--:|--:|--:|--:|\n",
    );
    for measured in all {
        let [mount, time_of] = [MOUNT, TIME_OF].map(|name| measured.times_of(name));
        let scan = |version: usize| mount[version].min() - time_of[version].min();
        let [core, tuned] = [0, 1].map(scan);
        let recorded = measured.sectors as f64 / 2.0;
        text += &format!(
            "| {} | {} | {:.2} | {} | {:.2} |\n",
            thousands(measured.sectors),
            nanoseconds(core),
            core / recorded,
            nanoseconds(tuned),
            tuned / recorded,
        );
    }
    text
}

/// The calls that go over every recorded sector, for each of them.
pub fn sector_table(all: &[Measured]) -> String {
    let mut text = String::from(
        "| call | sectors | core ns a sector | GB/s | tuned ns a sector | GB/s |\n\
         |---|--:|--:|--:|--:|--:|\n",
    );
    for (at, row) in ROWS.iter().enumerate() {
        for measured in all {
            let Some(recorded) = row.work.recorded(measured.sectors) else {
                continue;
            };
            let each = |times: &Times| times.min() / recorded as f64;
            let [core, tuned] = measured.rows[at].each_ref().map(each);
            text += &format!(
                "| {} | {} | {core:.2} | {:.1} | {tuned:.2} | {:.1} |\n",
                row.name,
                thousands(measured.sectors),
                2048.0 / core,
                2048.0 / tuned,
            );
        }
    }
    text
}

/// How many times as long a call takes on the larger disc.
pub fn growth_table(all: &[Measured]) -> String {
    let steps: Vec<_> = all.windows(2).map(|pair| (&pair[0], &pair[1])).collect();
    let mut text = String::from("| call |");
    for version in ["core", "tuned"] {
        for (smaller, larger) in &steps {
            let (larger, smaller) = (thousands(larger.sectors), thousands(smaller.sectors));
            text += &format!(" {version}, {larger} / {smaller} |");
        }
    }
    text += &format!("\n|---|{}\n", "--:|".repeat(2 * steps.len()));
    for (at, row) in ROWS.iter().enumerate() {
        text += &format!("| {} |", row.name);
        for version in 0..2 {
            for (smaller, larger) in &steps {
                let growth = larger.rows[at][version].min() / smaller.rows[at][version].min();
                text += &format!(" {growth:.2} |");
            }
        }
        text += "\n";
    }
    text
}

/// "every row with a ratio above 1.2"
pub fn noted_rows(all: &[Measured]) -> String {
    let noted: Vec<String> = all.iter().flat_map(noted_of).collect();
    let names = if noted.is_empty() {
        "none".into()
    } else {
        noted.join("; ")
    };
    format!("Rows with a ratio of minima above {NOTED}: {names}.")
}

fn noted_of(measured: &Measured) -> Vec<String> {
    let rows = ROWS.iter().zip(&measured.rows);
    let noted = rows.filter(|(_, times)| ratio(times) > NOTED);
    let sectors = thousands(measured.sectors);
    noted
        .map(|(row, times)| format!("{} at {sectors} ({:.2})", row.name, ratio(times)))
        .collect()
}

fn nanoseconds(time: f64) -> String {
    if time < 1000.0 {
        format!("{time:.1}")
    } else {
        thousands(time.round() as usize)
    }
}

/// A number with commas.
pub fn thousands(number: usize) -> String {
    match number {
        0..1000 => number.to_string(),
        _ => format!("{},{:03}", thousands(number / 1000), number % 1000),
    }
}
