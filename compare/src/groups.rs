//! The groups of comparisons. Each is given an edition to make calls in, and random numbers with it; the first difference ends it.
mod blocks;
mod bursts;
mod damage;
mod faults;
mod frames;
mod index;
mod lists;
mod records;
mod refusals;
mod states;

use crate::calls::{Calls, Outcome};

pub struct Group {
    pub name: &'static str,
    pub says: &'static str,
    pub run: fn(&mut Calls) -> Outcome,
}

pub const GROUPS: [Group; 20] = [
    Group { name: "types", says: "every header and type byte in lock, edge and random payloads", run: blocks::types },
    Group { name: "octets", says: "all 256 octets in each character position of each format", run: blocks::octets },
    Group { name: "codes", says: "every code in each field of each format, unused bits set", run: blocks::codes },
    Group { name: "faults", says: "bad blocks one at a time: not locked, in lock, high", run: faults::faults },
    Group { name: "lists", says: "legal and illegal lists from random start states", run: lists::short },
    Group { name: "long lists", says: "lists of up to 100,000 vectors", run: lists::long },
    Group { name: "flips", says: "lines of either edition with 0 to 3 flipped bits", run: damage::flips },
    Group { name: "noise", says: "bursts of noise, and nothing but noise", run: damage::noise },
    Group { name: "slips", says: "lines at each of the 66 positions, bits lost and added", run: damage::slips },
    Group { name: "lock", says: "invalid headers at rates that lose lock", run: damage::lock },
    Group { name: "rate", says: "invalid headers at rates that reach high, window ends", run: damage::rate },
    Group { name: "truncated", says: "lines cut at any byte", run: damage::truncated },
    Group {
        name: "refusals",
        says: "every refusal, unknown editions, all slices short, exact and long",
        run: refusals::refusals,
    },
    Group {
        name: "bursts",
        says: "1,000 cuttings of each of twelve lines, refused calls between",
        run: bursts::bursts,
    },
    Group { name: "windows", says: "1,000 cuttings around the end of a window", run: bursts::windows },
    Group { name: "longest", says: "825,000 bytes in bursts, and one more", run: bursts::longest },
    Group { name: "states", says: "states of any numbers, judged and gone on from", run: states::states },
    Group { name: "records", says: "capture records read at any place, written and read back", run: records::records },
    Group { name: "frames", says: "words of every sort around one another, and what is received", run: frames::frames },
    Group { name: "index", says: "counts and error vectors by an index, built and foreign", run: index::index },
];

/// The bits of a number: which faults a call has.
fn bits<const N: usize>(number: usize) -> [bool; N] {
    std::array::from_fn(|i| number >> i & 1 == 1)
}

/// "The first that applies in these orders is given, and no later one": the number of the first fault that a call has, or 0.
fn first<const N: usize>(faults: [bool; N], numbers: [u64; N]) -> u64 {
    numbers.into_iter().zip(faults).find(|(_, fault)| *fault).map_or(0, |(number, _)| number)
}
