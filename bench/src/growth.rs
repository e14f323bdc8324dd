//! How the cost of a block changes with their number, on 1,500-octet frames.
use crate::report::Report;
use crate::timing::{self, Timed};
use crate::traffic;
use crate::ways::WAYS;
use compare::library;
use compare::reference::edition::Edition;

/// Numbers of blocks.
pub const BLOCKS: [usize; 5] = [10, 100, 1_000, 10_000, 100_000];

/// Vectors are sent in groups of four: the least number of them that is no less than this.
fn whole_groups(blocks: usize) -> usize {
    blocks.next_multiple_of(4)
}

/// A line of so many blocks has so many bytes.
fn line_bytes(blocks: usize) -> usize {
    (66 * blocks).div_ceil(8)
}

/// What is timed, in both directions, for each number of blocks.
pub struct Growth {
    sent: [Timed; BLOCKS.len()],
    received: [Timed; BLOCKS.len()],
}

/// A direction and one way: ns a block for each number of blocks.
pub struct Curve {
    pub direction: &'static str,
    pub way: &'static str,
    pub blocks: [usize; BLOCKS.len()],
    pub ns: [f64; BLOCKS.len()],
}

impl Growth {
    pub fn new() -> Growth {
        let vectors = traffic::long_frames();
        let line = library::sent(Edition::Old, &vectors, 0).0;
        Growth {
            sent: BLOCKS.map(|blocks| timing::sending(Edition::Old, vectors[..10 * whole_groups(blocks)].to_vec())),
            received: BLOCKS.map(|blocks| timing::receiving(Edition::Old, line[..line_bytes(blocks)].to_vec())),
        }
    }

    pub fn timed(&mut self) -> impl Iterator<Item = &mut Timed> {
        self.sent.iter_mut().chain(&mut self.received)
    }

    /// Three curves for sending, three for receiving.
    pub fn curves(&self) -> Vec<Curve> {
        let both = [("send", BLOCKS.map(whole_groups), &self.sent), ("receive", BLOCKS, &self.received)];
        both.into_iter()
            .flat_map(|(direction, blocks, timed)| (0..WAYS.len()).map(move |i| curve(direction, blocks, timed, i)))
            .collect()
    }
}

fn curve(direction: &'static str, blocks: [usize; BLOCKS.len()], timed: &[Timed; BLOCKS.len()], way: usize) -> Curve {
    Curve { direction, way: WAYS[way].name, blocks, ns: timed.each_ref().map(|timed| timed.best[way]) }
}

/// A number with a comma before the last three digits.
pub fn grouped(number: usize) -> String {
    match number / 1_000 {
        0 => number.to_string(),
        thousands => format!("{thousands},{:03}", number % 1_000),
    }
}

/// The table, and where README.md has the picture.
pub fn print(curves: &[Curve], report: &mut Report) {
    let blocks = BLOCKS.map(|blocks| format!("{} blocks", grouped(blocks)));
    let names: Vec<&str> = ["", ""].into_iter().chain(blocks.iter().map(|blocks| blocks.as_str())).collect();
    report.head("Calls of other lengths, 1,500-octet frames, ns a block", &names);
    for curve in curves {
        let cells = (0..BLOCKS.len()).map(|i| match (curve.ns[i], curve.blocks[i]) {
            (ns, blocks) if blocks == BLOCKS[i] => format!("{ns:.2}"),
            (ns, blocks) => format!("{ns:.2} ({blocks} blocks)"),
        });
        let cells: Vec<String> = [curve.direction, curve.way].map(str::to_string).into_iter().chain(cells).collect();
        report.row(&cells);
    }
    report.picture("ns a block by the number of blocks in a call", "docs/growth.svg");
}
