//! One call of the library beside the same call of the second program: result, every byte of every lent slice, and the bytes
//! before and behind each slice.
use crate::library;
use crate::random::Random;
use crate::reference::counters::{COUNTERS_BYTES, FIELDS};
use crate::reference::diagrams::State;
use crate::reference::edition::{Edition, EDITIONS};
use crate::reference::{receiving, sending, Refusal};

/// Bytes before and behind a lent slice that nobody may touch. Odd, so that slices stand at odd addresses too.
const GUARD: usize = 37;

/// A slice that is lent: a guard, the slice, a guard.
pub struct Lent {
    bytes: Vec<u8>,
    before: usize,
    len: usize,
}

impl Lent {
    pub fn new(content: &[u8], random: &mut Random) -> Lent {
        let before = GUARD + random.below(16);
        let mut bytes = random.bytes(before);
        bytes.extend(content);
        bytes.extend(random.bytes(GUARD));
        Lent { bytes, before, len: content.len() }
    }

    pub fn slice(&mut self) -> &mut [u8] {
        &mut self.bytes[self.before..self.before + self.len]
    }

    /// These bytes with `content` from the slice's start: what they should be after the call.
    pub fn with(&self, content: &[u8]) -> Vec<u8> {
        let mut bytes = self.bytes.clone();
        bytes[self.before..self.before + content.len()].copy_from_slice(content);
        bytes
    }
}

/// What was compared.
#[derive(Default, Clone, Copy)]
pub struct Tally {
    pub sends: u64,
    pub sent: u64,
    pub receives: u64,
    pub received: u64,
    /// Bad blocks among those received, by reason.
    pub faults: [u64; 4],
    /// Lines whose last vector was judged without its successor.
    pub alone: u64,
    pub begun: u64,
    pub replaced: u64,
    /// Vectors of low power idle that were answered as decoded.
    pub low_power: u64,
    /// Fields of the counters that a call left at the top.
    pub full: u64,
    pub refusals: u64,
    /// Calls of a capture that comes in bursts.
    pub bursts: u64,
    /// Those that end behind the first bit of a header, before a bit to skip, and with a Terminate held.
    pub in_header: u64,
    pub before_skip: u64,
    pub held_end: u64,
    /// Calls from foreign states that were accepted.
    pub foreign: u64,
    /// Capture records that were read, those of them that an old reader refuses, ends of records, and records that were written.
    pub records: u64,
    pub long_records: u64,
    pub ends: u64,
    pub written: u64,
    /// Frames that were listed, those of them that are good and that are still open at the end, and lists that were too small.
    pub frames: u64,
    pub good_frames: u64,
    pub open_frames: u64,
    pub small_lists: u64,
    /// Indexes that were built, the entries in them, and the vectors that are of kind S in the new edition alone.
    pub indexes: u64,
    pub entries: u64,
    pub new_starts: u64,
    /// Counts by an index, and those of them that were held to 0 or to b - a.
    pub counts: u64,
    pub held_counts: u64,
    /// Error vectors that were found by an index, such as there were none of, and the most entries that one search read.
    pub found: u64,
    pub not_found: u64,
    pub most_read: u64,
}

impl Tally {
    pub fn add(&mut self, other: &Tally) {
        self.sends += other.sends;
        self.sent += other.sent;
        self.receives += other.receives;
        self.received += other.received;
        self.add_faults(other.faults);
        self.alone += other.alone;
        self.begun += other.begun;
        self.replaced += other.replaced;
        self.low_power += other.low_power;
        self.full += other.full;
        self.refusals += other.refusals;
        self.bursts += other.bursts;
        self.in_header += other.in_header;
        self.before_skip += other.before_skip;
        self.held_end += other.held_end;
        self.foreign += other.foreign;
        self.records += other.records;
        self.long_records += other.long_records;
        self.ends += other.ends;
        self.written += other.written;
        self.frames += other.frames;
        self.good_frames += other.good_frames;
        self.open_frames += other.open_frames;
        self.small_lists += other.small_lists;
        self.indexes += other.indexes;
        self.entries += other.entries;
        self.new_starts += other.new_starts;
        self.counts += other.counts;
        self.held_counts += other.held_counts;
        self.found += other.found;
        self.not_found += other.not_found;
        self.most_read = self.most_read.max(other.most_read);
    }

    fn add_faults(&mut self, faults: [u64; 4]) {
        self.faults = std::array::from_fn(|i| self.faults[i] + faults[i]);
    }
}

/// Makes calls in an edition and counts them. A difference is an `Err` that says what differed.
pub struct Calls {
    pub edition: Edition,
    pub random: Random,
    pub tally: Tally,
}

pub type Outcome = Result<(), String>;

impl Calls {
    pub fn new(edition: Edition, seed: u64) -> Calls {
        Calls { edition, random: Random::new(seed), tally: Tally::default() }
    }

    /// Sends with exactly the room that is asked for.
    pub fn send(&mut self, vectors: &[u8], start: u64) -> Outcome {
        self.send_into(self.edition as u64, vectors, start, vectors.len() / 40 * 33, sending::SUMMARY_BYTES)
    }

    /// Receives with exactly the room that is asked for.
    pub fn receive(&mut self, line: &[u8]) -> Outcome {
        let old = self.random.counters(COUNTERS_BYTES);
        self.receive_into(self.edition as u64, line, 8 * line.len() / 66 * 10, receiving::SUMMARY_BYTES, &old)
    }

    /// Sends a list, and receives what the second program sends of it.
    pub fn both_ways(&mut self, vectors: &[u8], start: u64) -> Outcome {
        self.send(vectors, start)?;
        let sent = sending::send(self.edition as u64, vectors, start, usize::MAX, usize::MAX).ok().unwrap();
        self.receive(&sent.line)
    }

    /// In any edition, an unknown one too.
    pub fn send_into(&mut self, edition: u64, vectors: &[u8], start: u64, room: usize, summary_room: usize) -> Outcome {
        let mut input = Lent::new(vectors, &mut self.random);
        let mut line = Lent::new(&vec![0xa5; room], &mut self.random);
        let mut summary = Lent::new(&vec![0x5a; summary_room], &mut self.random);
        let answer = sending::send(edition, vectors, start, room, summary_room);
        let (result, output, words) = match &answer {
            Ok(sent) => (0, sent.line.clone(), sent.summary()),
            Err(refusal) => self.refusal(*refusal, sending::SUMMARY_BYTES, summary_room),
        };
        let expected = [input.bytes.clone(), line.with(&output), summary.with(&words)];
        let got = library::send(edition, input.slice(), start, line.slice(), summary.slice());
        self.tally.sends += 1;
        self.tally.sent += output.len() as u64 / 33 * 4;
        same(
            &format!(
                "sending {} bytes in edition {edition} from state {start:#x}, room {room}, summary {summary_room}",
                vectors.len()
            ),
            ["vectors", "line", "summary"],
            (result, &expected),
            (got, &[input, line, summary]),
        )
    }

    /// In any edition, an unknown one too. `old` is the content of the lent counters.
    pub fn receive_into(&mut self, edition: u64, line: &[u8], room: usize, summary_room: usize, old: &[u8]) -> Outcome {
        let mut input = Lent::new(line, &mut self.random);
        let mut vectors = Lent::new(&vec![0xa5; room], &mut self.random);
        let mut summary = Lent::new(&vec![0x5a; summary_room], &mut self.random);
        let mut counters = Lent::new(old, &mut self.random);
        let mut total = old.to_vec();
        let answer = receiving::receive(edition, line, room, summary_room, &mut total);
        let (result, output, words) = match &answer {
            Ok(received) => (0, received.vectors.clone(), received.summary()),
            Err(refusal) => self.refusal(*refusal, receiving::SUMMARY_BYTES, summary_room),
        };
        let expected = [input.bytes.clone(), vectors.with(&output), summary.with(&words), counters.with(&total)];
        let got = library::receive(edition, input.slice(), vectors.slice(), summary.slice(), counters.slice());
        self.tally.receives += 1;
        self.tally.received += output.len() as u64 / 10;
        if let Ok(received) = answer {
            self.tally.add_faults(received.faults());
            self.tally.alone += received.alone() as u64;
            self.tally.begun += received.begun();
            self.tally.replaced += received.replaced();
            self.tally.low_power += received.states.iter().filter(|state| **state == State::LI).count() as u64;
            self.tally.full += total.chunks(4).take(FIELDS).filter(|field| *field == [0xff; 4]).count() as u64;
        }
        let counters_room = old.len();
        same(
            &format!(
                "receiving {} bytes in edition {edition}, room {room}, summary {summary_room}, counters {counters_room}",
                line.len()
            ),
            ["line", "vectors", "summary", "counters"],
            (result, &expected),
            (got, &[input, vectors, summary, counters]),
        )
    }

    /// What a refusal gives: its result, no bytes, and zeros in a summary that has room for them.
    pub fn refusal(&mut self, refusal: Refusal, words: usize, room: usize) -> (u64, Vec<u8>, Vec<u8>) {
        self.tally.refusals += 1;
        let zeros = if room < words { 0 } else { words };
        (refusal.number + 256 * refusal.place as u64, Vec::new(), vec![0; zeros])
    }
}

/// The vectors and the words of a line's summary.
pub type Answer = (Vec<u8>, [u64; library::RECEIVE_WORDS]);

/// What the library and the second program both say of a line.
pub fn agreed(edition: Edition, line: &[u8]) -> Answer {
    Calls::new(edition, 1).receive(line).unwrap();
    let (vectors, summary) = library::received(edition, line);
    (vectors, library::words(&summary))
}

/// The same of a line of which both editions say it.
pub fn agreed_in_both(line: &[u8]) -> Answer {
    in_both(|edition| agreed(edition, line))
}

/// What one edition says as well as the other.
pub fn in_both<A: PartialEq + std::fmt::Debug>(say: impl FnMut(Edition) -> A) -> A {
    let [old, new] = EDITIONS.map(say);
    assert_eq!(old, new, "the editions differ");
    old
}

/// A group whose random numbers do not lead to what it is for compares nothing.
pub fn enough(what: &str, count: u64) -> Outcome {
    if count < 50 {
        return Err(format!("only {count} {what}"));
    }
    Ok(())
}

/// Compares result and slices, guards included.
pub fn same<const N: usize>(
    call: &str,
    names: [&str; N],
    expected: (u64, &[Vec<u8>; N]),
    got: (u64, &[Lent; N]),
) -> Outcome {
    if got.0 != expected.0 {
        return Err(format!("{call}: result {} and not {}", got.0, expected.0));
    }
    for ((name, expected), got) in names.iter().zip(expected.1).zip(got.1) {
        if let Some(i) = (0..expected.len()).find(|i| got.bytes[*i] != expected[*i]) {
            let place = i as i64 - got.before as i64;
            return Err(format!(
                "{call}: byte {place} of {name} (of {}) is {:02x} and not {:02x}",
                got.len, got.bytes[i], expected[i]
            ));
        }
    }
    Ok(())
}
