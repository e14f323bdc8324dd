//! The library beside two hand-written Rust versions: same machine, same run, same input, all built for release, the buffers warm, the
//! calls in turn, the best of many. Nothing is timed before all have given the same bytes. Then the library alone, a line in bursts beside
//! one call over the whole; what a short call costs; frames, beside one hand-written version; an index, beside a full count
//! without one; and how the cost of a block changes with their number.
//!
//! `bench FOLDER` also writes there what it prints, as `speed.md`, and the last table as a picture, `growth.svg`.
mod agree;
mod fast;
mod fastest;
mod frames;
mod growth;
mod index;
mod picture;
mod report;
mod tables;
mod timing;
mod traffic;
mod ways;

use growth::Growth;
use report::Report;

fn main() {
    agree::check();
    let mut tables = [tables::ways(), tables::bursts(), tables::calls(), tables::frames(), tables::index()];
    let mut growth = Growth::new();
    for round in 1..=timing::ROUNDS {
        eprintln!("round {round} of {}", timing::ROUNDS);
        tables.iter_mut().flat_map(|table| table.timed()).chain(growth.timed()).for_each(|timed| timed.again());
    }
    let mut report = Report::default();
    tables.iter().for_each(|table| table.print(&mut report));
    let curves = growth.curves();
    growth::print(&curves, &mut report);
    if let Some(folder) = std::env::args().nth(1) {
        report.write(&folder, "speed.md");
        report::write(&folder, "growth.svg", &picture::of(&curves));
    }
}
