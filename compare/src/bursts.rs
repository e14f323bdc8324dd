//! Bursts and closing calls: one call of the library beside the same call of the second program, from any state.
use crate::calls::{same, Calls, Lent, Outcome};
use crate::library;
use crate::reference::block::Kind;
use crate::reference::receiving::SUMMARY_BYTES;
use crate::reference::resumed;
use crate::reference::state::{self, Words, CARRIED, HELD, HELD_KIND, SKIP};

/// The next bytes of a line, or its end.
#[derive(Clone, Copy)]
pub enum Step<'a> {
    Burst(&'a [u8]),
    Close,
}

impl<'a> Step<'a> {
    /// The closing call brings none.
    pub fn bytes(self) -> &'a [u8] {
        match self {
            Step::Burst(line) => line,
            Step::Close => &[],
        }
    }
}

/// What a call is lent: the content of state and counters, and the lengths of the other two.
#[derive(Clone)]
pub struct Lends {
    pub state: Vec<u8>,
    pub counters: Vec<u8>,
    pub room: usize,
    pub summary_room: usize,
}

/// What a call has given: its result, what then is in state and counters, and what it wrote of vectors and summary.
pub struct Gave {
    pub result: u64,
    pub state: Vec<u8>,
    pub counters: Vec<u8>,
    pub vectors: Vec<u8>,
    pub summary: Vec<u8>,
}

impl Calls {
    /// A fresh state in any edition, an unknown one too: the result, and what is in a lent slice of this content then.
    pub fn begin(&mut self, edition: u64, old: &[u8]) -> Result<(u64, Vec<u8>), String> {
        let mut state = Lent::new(old, &mut self.random);
        let mut fresh = old.to_vec();
        let result = match resumed::begin(edition, &mut fresh) {
            Ok(()) => 0,
            Err(refusal) => self.refusal(refusal, 0, 0).0,
        };
        let expected = [state.with(&fresh)];
        let got = library::begin(edition, state.slice());
        self.tally.bursts += 1;
        let call = format!("beginning in edition {edition}, state of {} bytes", old.len());
        same(&call, ["state"], (result, &expected), (got, &[state]))?;
        Ok((result, fresh))
    }

    /// What both give.
    pub fn step(&mut self, step: Step, lends: &Lends) -> Result<Gave, String> {
        let gives = self.reference_step(step, lends);
        self.library_step(step, lends, &gives)?;
        self.count(&gives);
        Ok(gives)
    }

    fn reference_step(&mut self, step: Step, lends: &Lends) -> Gave {
        let Lends { mut state, mut counters, room, summary_room } = lends.clone();
        let lent = resumed::Lent { state: &mut state, room, summary_room, counters: &mut counters };
        let answer = match step {
            Step::Burst(line) => resumed::burst(lent, line),
            Step::Close => resumed::close(lent),
        };
        let (result, vectors, summary) = match answer {
            Ok(answer) => (0, answer.vectors, answer.summary),
            Err(refusal) => self.refusal(refusal, SUMMARY_BYTES, summary_room),
        };
        Gave { result, state, counters, vectors, summary }
    }

    fn library_step(&mut self, step: Step, lends: &Lends, gives: &Gave) -> Outcome {
        let mut lend = |content: &[u8]| Lent::new(content, &mut self.random);
        let mut line = lend(step.bytes());
        let mut state = lend(&lends.state);
        let mut vectors = lend(&vec![0xa5; lends.room]);
        let mut summary = lend(&vec![0x5a; lends.summary_room]);
        let mut counters = lend(&lends.counters);
        let expected = [
            line.with(&[]),
            state.with(&gives.state),
            vectors.with(&gives.vectors),
            summary.with(&gives.summary),
            counters.with(&gives.counters),
        ];
        let (s, v, m, c) = (state.slice(), vectors.slice(), summary.slice(), counters.slice());
        let got = match step {
            Step::Burst(_) => library::burst(s, line.slice(), v, m, c),
            Step::Close => library::close(s, v, m, c),
        };
        same(
            &described(step, lends),
            ["line", "state", "vectors", "summary", "counters"],
            (gives.result, &expected),
            (got, &[line, state, vectors, summary, counters]),
        )
    }

    fn count(&mut self, gave: &Gave) {
        self.tally.bursts += 1;
        self.tally.receives += 1;
        self.tally.received += gave.vectors.len() as u64 / 10;
        if gave.result == 0 {
            let words = words(&gave.state);
            self.tally.in_header += (words[CARRIED] == 1) as u64;
            self.tally.before_skip += (words[SKIP] != 0) as u64;
            self.tally.held_end += (words[HELD] != 0 && words[HELD_KIND] == Kind::T as u64) as u64;
        }
    }
}

/// The words of a state that is not too short.
pub fn words(state: &[u8]) -> Words {
    state::of_bytes(state.first_chunk().unwrap())
}

/// A call in words, its state in hexadecimal.
pub fn described(step: Step, lends: &Lends) -> String {
    let call = match step {
        Step::Burst(line) => format!("a burst of {} bytes", line.len()),
        Step::Close => "closing".to_string(),
    };
    let number = |bytes: &[u8]| bytes.iter().rev().fold(0u64, |number, byte| number << 8 | *byte as u64);
    let state: Vec<String> = lends.state.chunks(8).map(|word| format!("{:x}", number(word))).collect();
    format!(
        "{call}, room {}, summary {}, counters {}, from state {}",
        lends.room,
        lends.summary_room,
        lends.counters.len(),
        state.join(" ")
    )
}
