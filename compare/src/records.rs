//! Capture records: one call of the library beside the same call of the second program, and bytes to make files of.
use crate::calls::{same, Calls, Lent};
use crate::library;
use crate::reference::records::{self, kept_limit, Record, LIMIT, OLD_LIMIT, SUMMARY_BYTES, WORDS};
use crate::reference::Refusal;

/// What reading gives: its result, and the words of the summary, which are zeros at the end of records and of a refusal.
pub type Read = (u64, [u64; WORDS]);

/// What writing gives: its result, and the bytes that it wrote.
pub type Written = (u64, Vec<u8>);

impl Calls {
    /// What both give at a place of a file.
    pub fn read_record(&mut self, file: &[u8], place: u64, summary_room: usize) -> Result<Read, String> {
        let mut lent = Lent::new(file, &mut self.random);
        let mut summary = Lent::new(&vec![0x5a; summary_room], &mut self.random);
        let answer = records::read(LIMIT, file, place, summary_room);
        let gives = given(answer);
        let content = match answer {
            Ok(_) => gives.1.iter().flat_map(|word| word.to_le_bytes()).collect(),
            Err(refusal) => self.refusal(refusal, SUMMARY_BYTES, summary_room).2,
        };
        let expected = [lent.with(&[]), summary.with(&content)];
        let got = library::read_record(lent.slice(), place, summary.slice());
        if let Ok(found) = answer {
            self.tally.records += found.is_some() as u64;
            self.tally.long_records += found.is_some_and(|record| record.length > OLD_LIMIT) as u64;
            self.tally.ends += found.is_none() as u64;
        }
        same(
            &format!("reading at place {place} of {} bytes, summary {summary_room}", file.len()),
            ["file", "summary"],
            (gives.0, &expected),
            (got, &[lent, summary]),
        )?;
        Ok(gives)
    }

    /// What both give of a body.
    pub fn write_record(&mut self, kind: u64, body: &[u8], wide: u64, room: usize) -> Result<Written, String> {
        let mut input = Lent::new(body, &mut self.random);
        let mut lent = Lent::new(&vec![0xa5; room], &mut self.random);
        let (result, output) = match records::write(kept_limit(wide), kind, body, room) {
            Ok(record) => (0, record),
            Err(refusal) => (self.refusal(refusal, 0, 0).0, Vec::new()),
        };
        let expected = [input.with(&[]), lent.with(&output)];
        let got = library::write_record(kind, input.slice(), wide, lent.slice());
        self.tally.written += (result == 0) as u64;
        same(
            &format!("writing {} bytes of kind {kind}, wide {wide}, room {room}", body.len()),
            ["body", "room"],
            (result, &expected),
            (got, &[input, lent]),
        )?;
        Ok((result, output))
    }
}

/// What an old reader gives, which is the second program's with the limit from before request 7/13.
pub fn old_read(file: &[u8], place: u64) -> Read {
    given(records::read(OLD_LIMIT, file, place, SUMMARY_BYTES))
}

fn given(answer: Result<Option<Record>, Refusal>) -> Read {
    match answer {
        Ok(found) => (0, found.map_or([0; WORDS], |record| record.words())),
        Err(refusal) => (refusal.number + 256 * refusal.place as u64, [0; WORDS]),
    }
}

/// A head of any length and kind that it can hold.
pub fn head(length: usize, kind: usize) -> [u8; 4] {
    let [length, kind] = [length, kind].map(|number| u16::try_from(number).unwrap().to_le_bytes());
    [length[0], length[1], kind[0], kind[1]]
}

/// A head and its body.
pub fn record(kind: usize, body: &[u8]) -> Vec<u8> {
    [&head(body.len(), kind), body].concat()
}
