//! Whole captures in bursts: each call beside the second program's two ways, and all of them beside one call over the whole.
use crate::bursts::{described, words, Lends, Step};
use crate::calls::{Calls, Outcome};
use crate::library;
use crate::random::Random;
use crate::reference::counters::{Counters, COUNTERS_BYTES};
use crate::reference::kept::Kept;
use crate::reference::receiving::SUMMARY_BYTES;
use crate::reference::resumed::wanted;
use crate::reference::state::{self, Words, CARRIED, STATE_BYTES};

/// A capture and what its calls have given so far. What a call is lent are copies.
#[derive(Clone)]
pub struct Capture {
    kept: Kept,
    old_counters: Vec<u8>,
    pub state: Vec<u8>,
    pub counters: Vec<u8>,
    pub vectors: Vec<u8>,
    pub summary: Vec<u8>,
}

/// The program that starts over is asked so often that it goes over some so many bytes a call.
const BYTES_AGAIN: usize = 150;

impl Capture {
    /// A fresh one, in the edition of the calls, with counters of any content.
    pub fn begin(calls: &mut Calls) -> Result<Capture, String> {
        let counters = calls.random.counters(COUNTERS_BYTES);
        Capture::begin_with(calls, &counters)
    }

    pub fn begin_with(calls: &mut Calls, counters: &[u8]) -> Result<Capture, String> {
        let old = calls.random.bytes(STATE_BYTES);
        let (_, state) = calls.begin(calls.edition as u64, &old)?;
        let kept = Kept::begin(calls.edition);
        let counters = counters.to_vec();
        Ok(Capture { kept, old_counters: counters.clone(), state, counters, vectors: vec![], summary: vec![] })
    }

    pub fn words(&self) -> Words {
        words(&self.state)
    }

    /// Just what a call has to be lent.
    pub fn lends(&self, step: Step) -> Lends {
        Lends {
            state: self.state.clone(),
            counters: self.counters.clone(),
            room: wanted(self.words()[CARRIED], step.bytes().len()),
            summary_room: SUMMARY_BYTES,
        }
    }

    /// A burst that is accepted, with just the room that it wants or more.
    pub fn burst(&mut self, calls: &mut Calls, line: &[u8]) -> Outcome {
        self.accepted(calls, Step::Burst(line))
    }

    /// A closing call that is accepted.
    pub fn close(&mut self, calls: &mut Calls) -> Outcome {
        self.accepted(calls, Step::Close)
    }

    fn accepted(&mut self, calls: &mut Calls, step: Step) -> Outcome {
        let mut lends = self.lends(step);
        lengthen(&mut lends, &mut calls.random);
        match self.call(calls, step, &lends)? {
            0 => Ok(()),
            number => Err(format!("{}: refused with {number}", described(step, &lends))),
        }
    }

    /// The result of a call. A refused one leaves the capture as it was, so that it can be made again.
    pub fn call(&mut self, calls: &mut Calls, step: Step, lends: &Lends) -> Result<u64, String> {
        let gave = calls.step(step, lends)?;
        let new = step.bytes();
        let asked = calls.random.below(1 + self.kept.line.len() + new.len()) < BYTES_AGAIN;
        if asked && lends.state.len() >= STATE_BYTES {
            let judged = self.kept.judged(new.len(), lends.room, lends.summary_room, lends.counters.len());
            let result = judged.map_or_else(|refusal| refusal.number, |()| 0);
            equal("result", &gave.result, &result)?;
        }
        if gave.result == 0 {
            self.state = gave.state[..STATE_BYTES].to_vec();
            self.counters = gave.counters[..COUNTERS_BYTES].to_vec();
            self.vectors.extend(gave.vectors);
            self.summary = gave.summary;
            self.kept.line.extend(new);
            self.kept.closed = matches!(step, Step::Close);
            if asked {
                self.same_as_kept()?;
            }
        }
        Ok(gave.result)
    }

    /// What has been given so far is what the program gives that keeps all bytes and starts over.
    pub fn same_as_kept(&self) -> Outcome {
        let so_far = self.kept.so_far();
        let mut total = Counters::of_bytes(self.old_counters[..].try_into().unwrap());
        total.add(so_far.counted);
        equal("state", &self.state[..], &state::bytes(&so_far.state))?;
        equal("counters", &self.counters[..], &total.bytes())?;
        equal("vectors", &self.vectors[..], &so_far.vectors)?;
        equal("summary", &self.summary[..], &so_far.summary)
    }

    /// After the closing call: "all the vectors joined and the last summary equal those of one call over the whole", and the counters.
    pub fn same_as_one_call(&self) -> Outcome {
        let line = &self.kept.line;
        let mut vectors = vec![0; 8 * line.len() / 66 * 10];
        let (mut summary, mut counters) = ([0; SUMMARY_BYTES], self.old_counters.clone());
        let result = library::receive(self.kept.edition as u64, line, &mut vectors, &mut summary, &mut counters);
        vectors.truncate(10 * library::word(&summary, 4) as usize);
        equal("result of one call", &0, &result)?;
        equal("vectors of one call", &self.vectors[..], &vectors)?;
        equal("summary of one call", &self.summary[..], &summary)?;
        equal("counters of one call", &self.counters[..], &counters)
    }
}

/// Makes the lent slices longer at times.
fn lengthen(lends: &mut Lends, random: &mut Random) {
    let mut more = || if random.once_in(3) { random.below(50) } else { 0 };
    lends.room += more();
    lends.summary_room += more();
    lends.state.resize(lends.state.len() + more(), 0xc3);
    lends.counters.resize(lends.counters.len() + more(), 0x3c);
}

fn equal<A: PartialEq + std::fmt::Debug + ?Sized>(name: &str, got: &A, expected: &A) -> Outcome {
    if got == expected {
        return Ok(());
    }
    Err(format!("{name}: in bursts {got:x?} and else {expected:x?}"))
}
