//! Compares the library with the second program: `compare [--seed N] [--only GROUP] [--soak]`. Each group runs in both editions, side by
//! side. The seed fixes everything; --soak goes on with one seed after another until a difference is found.
use compare::calls::{Calls, Outcome, Tally};
use compare::groups::{Group, GROUPS};
use compare::reference::edition::{Edition, EDITIONS};
use std::process::ExitCode;
use std::thread;
use std::time::{Duration, Instant, SystemTime};

struct Options {
    seed: u64,
    only: Option<String>,
    soak: bool,
}

fn options() -> Result<Options, String> {
    let mut options = Options { seed: 1, only: None, soak: false };
    let mut words = std::env::args().skip(1);
    let mut seeded = false;
    while let Some(word) = words.next() {
        let mut value = || words.next().ok_or(format!("{word} wants a value"));
        match word.as_str() {
            "--seed" => {
                options.seed = value()?.parse().map_err(|_| "a seed is a number".to_string())?;
                seeded = true;
            }
            "--only" => options.only = Some(value()?),
            "--soak" => options.soak = true,
            _ => return Err(format!("compare [--seed N] [--only GROUP] [--soak], and not {word}")),
        }
    }
    if options.soak && !seeded {
        let now = SystemTime::now().duration_since(SystemTime::UNIX_EPOCH).unwrap();
        options.seed = now.as_secs();
    }
    Ok(options)
}

/// What a group came to in an edition.
struct Compared {
    tally: Tally,
    outcome: Outcome,
    took: Duration,
}

fn run(group: &Group, edition: Edition, seed: u64) -> Compared {
    let began = Instant::now();
    let mut calls = Calls::new(edition, seed);
    let outcome = (group.run)(&mut calls);
    Compared { tally: calls.tally, outcome, took: began.elapsed() }
}

/// Says what a group compared in an edition, or what differed.
fn say(group: &Group, edition: Edition, seed: u64, compared: &Compared) {
    let t = &compared.tally;
    println!(
        "{:<11} {:>7} {:>9} {:>9} {:>9} {:>9} {:>8} {:>6.1} s  {}",
        group.name,
        edition as u64,
        t.sends,
        t.sent,
        t.receives,
        t.received,
        t.refusals,
        compared.took.as_secs_f64(),
        group.says
    );
    if let Err(difference) = &compared.outcome {
        println!("DIFFERENT: {difference}\n  again: compare --seed {seed} --only '{}'", group.name);
    }
}

/// Runs the groups once; the number of those that passed and that failed.
fn round(options: &Options, seed: u64) -> (usize, usize) {
    println!("seed {seed}");
    println!(
        "{:<11} {:>7} {:>9} {:>9} {:>9} {:>9} {:>8}",
        "group", "edition", "sends", "blocks", "receives", "blocks", "refused"
    );
    let mut total = Tally::default();
    let (mut passed, mut failed) = (0, 0);
    for group in &GROUPS {
        if options.only.as_ref().is_some_and(|name| name != group.name) {
            continue;
        }
        let both = thread::scope(|scope| {
            EDITIONS.map(|edition| scope.spawn(move || run(group, edition, seed))).map(|one| one.join().unwrap())
        });
        for (edition, compared) in EDITIONS.into_iter().zip(&both) {
            say(group, edition, seed, compared);
            total.add(&compared.tally);
            if compared.outcome.is_ok() {
                passed += 1;
            } else {
                failed += 1;
            }
        }
    }
    println!("compared: {} blocks sent, {} blocks received, {} refusals", total.sent, total.received, total.refusals);
    let [header, type_byte, control_code, set_code] = total.faults;
    println!("bad blocks received: {header} header, {type_byte} type, {control_code} control code, {set_code} ordered set code");
    println!("lines that end with an accepted Terminate: {}", total.alone);
    println!(
        "frames begun: {}, vectors replaced: {}, low power idle: {}; counters at the top: {}",
        total.begun, total.replaced, total.low_power, total.full
    );
    println!(
        "calls of captures in bursts: {}, accepted from foreign states: {}; they end inside a header: {}, before a bit to skip: {}, \
         before a Terminate is answered: {}",
        total.bursts, total.foreign, total.in_header, total.before_skip, total.held_end
    );
    println!(
        "records read: {}, of them longer than an old reader takes: {}, ends of records: {}; records written: {}",
        total.records, total.long_records, total.ends, total.written
    );
    println!(
        "frames listed: {}, good: {}, bad: {}, of them still open at the end: {}; lists too small: {}",
        total.frames,
        total.good_frames,
        total.frames - total.good_frames,
        total.open_frames,
        total.small_lists
    );
    println!(
        "indexes built: {}, entries: {}, vectors of kind S in the new edition alone: {}",
        total.indexes, total.entries, total.new_starts
    );
    println!(
        "counts by an index: {}, of them held: {}; error vectors found: {}, not found: {}, entries read at most: {}",
        total.counts, total.held_counts, total.found, total.not_found, total.most_read
    );
    (passed, failed)
}

fn main() -> ExitCode {
    let options = match options() {
        Ok(options) => options,
        Err(words) => {
            eprintln!("{words}");
            return ExitCode::from(2);
        }
    };
    let (mut passed, mut failed) = round(&options, options.seed);
    let mut seed = options.seed;
    while options.soak && failed == 0 {
        seed += 1;
        (passed, failed) = round(&options, seed);
    }
    println!("{passed} passed, {failed} failed");
    if passed == 0 || failed > 0 {
        return ExitCode::FAILURE;
    }
    ExitCode::SUCCESS
}
