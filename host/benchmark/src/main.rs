//! The recording core side by side with a tuned Rust version of the same thirteen
//! calls, on discs of 1,000, 36,000 and 360,000 sectors.
//!
//! `station-benchmark` prints Markdown; `--quick` leaves out the largest disc.
//! `--commands PROGRAM` takes the times of the commands of `station` instead.

#![forbid(unsafe_code)]

mod buffers;
mod commands;
mod discs;
mod machine;
mod measure;
mod report;
mod rows;
mod sums;
mod tuned;
mod version;

use std::env;
use std::path::Path;
use std::process::ExitCode;

use buffers::Buffers;
use machine::Cache;
use report::{thousands, Measured};
use rows::ROWS;
use tuned::{LEDGER, SECTOR};

const SIZES: [usize; 3] = [1000, 36_000, 360_000];

const HOW: &str = "\
Both versions are called on the same prepared buffers in one run, in turn (core, tuned, core, tuned ..), through
function pointers. Before a row is timed, both must give the same answers and leave the same bytes of image, kinds,
roles, ledger, block, time told and part of a run viewed. A round is one batch of each, of up to 64 calls; one of close session, since it closes the
disc. Ledger, kinds and the roles of blocks let go are set back between batches, outside the measured time. The bytes that a call reads were read in
the round before. Unless a row says otherwise, half of the disc is recorded, the ledger has 458 numbers in use and the
last table has 458 entries, so that its CRC of 2,028 bytes is part of each call that reads the ledger. `no table yet`:
the ledger has no last table. `4,087 numbers`: ledger and last table have so many, all in use but on the disc of 1,000 sectors, where 491
are; the table lies in eight own sectors before its ICB. A commit of them names seven again and records the eighth; `all
recorded`: before each call one entry in each own sector is set, within the measured time, so that none is named again. `all
saves of 4,087 numbers`: the disc is full of such commits. A number written was in use, so that a write and a release let its block go; `named twice`:
another number has that block too; `unused`: the number had none. `image swept`: the whole image was read since the round before, ending at block 0. Before
each write with links, four bytes of the ledger are set to mode 0 within the measured time. Tables of `dirty by all`, `all
tables` and `look back to the first` have no entries: a CRC of 196 bytes. A view is of a number whose block is a run's entry; it fills
its buffer, of so many bytes, each call of a batch from another offset within 614,400 bytes. `1 extent` and `100 extents`:
a run of 300 sectors. `of 32 sectors` and `of nearly all sectors`: one extent, on a full disc; of the latter each call
passes over the kinds.
";

const KINDS_PASS: &str = "\
## The pass over the kinds

Close packet with no table yet, beside `kinds.iter().map(|kind| u64::from(*kind)).sum()` over the same bytes; minima.
";

const SCAN: &str = "\
## The scan of the roles

A clean mount less `time of 0`, which finds the same table and makes no roles; minima.
";

const EVERY_SECTOR: &str = "\
## Over every recorded sector

GB/s counts 2,048 bytes a sector, of which a search and a scan read the first 64, a walk the first 256, and both of a
table in own sectors these too, however many tables name them.
";

const GROWTH: &str = "\
## Growth

How many times as long a call takes on the larger disc; minima.
";

fn main() -> ExitCode {
    let arguments: Vec<String> = env::args().skip(1).collect();
    match arguments.iter().map(String::as_str).collect::<Vec<_>>()[..] {
        [] => run(&SIZES),
        ["--quick"] => run(&SIZES[..2]),
        ["--commands", program] => {
            if let Err(error) = commands::run(Path::new(program), &SIZES) {
                eprintln!("station-benchmark: {error}");
                return ExitCode::FAILURE;
            }
        }
        _ => {
            eprintln!("usage: station-benchmark [--quick | --commands PROGRAM]");
            return ExitCode::from(2);
        }
    }
    ExitCode::SUCCESS
}

fn run(sizes: &[usize]) {
    let caches = machine::caches();
    let most = sizes.iter().max().map_or(0, |sectors| sectors * SECTOR);
    print!("{}", machine::describe(&caches));
    println!(
        "- memory needed: one image at a time, at most {} bytes\n",
        thousands(most)
    );
    println!(
        "{HOW}\nThe CRC alone:\n\n{}",
        sums::crc_table(&mut Buffers::new(1))
    );
    let all: Vec<Measured> = sizes
        .iter()
        .map(|sectors| on_disc(*sectors, &caches))
        .collect();
    println!("{KINDS_PASS}\n{}", report::kinds_table(&all));
    println!("{SCAN}\n{}", report::scan_table(&all));
    println!("{EVERY_SECTOR}\n{}", report::sector_table(&all));
    println!("{GROWTH}\n{}", report::growth_table(&all));
    println!("{}", report::noted_rows(&all));
}

/// All rows on a disc of one size; its table is printed at once.
fn on_disc(sectors: usize, caches: &[Cache]) -> Measured {
    let mut buffers = Buffers::new(sectors);
    println!(
        "## {} sectors\n\n{}",
        thousands(sectors),
        warm(sectors, caches)
    );
    let kinds_pass = sums::kinds_pass(&mut buffers);
    let rows = ROWS
        .iter()
        .map(|row| measure::measure(row, &mut buffers))
        .collect();
    let measured = Measured {
        sectors,
        rows,
        kinds_pass,
    };
    println!("{}", report::size_table(&measured));
    measured
}

/// Which bytes can be in which cache when a round begins.
fn warm(sectors: usize, caches: &[Cache]) -> String {
    let parts = [
        ("kinds", sectors),
        ("roles", sectors),
        ("image", SECTOR * sectors),
        (
            "the 64 bytes a sector that a search or a scan reads",
            64 * sectors,
        ),
        (
            "the 256 that a walk over tables of no numbers reads",
            256 * sectors,
        ),
        ("ledger and block", LEDGER + SECTOR),
    ];
    let home = |(name, bytes)| {
        format!(
            "- {name}: {} bytes, {}\n",
            thousands(bytes),
            machine::home(caches, bytes)
        )
    };
    parts.into_iter().map(home).collect()
}
