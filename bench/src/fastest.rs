//! The fastest sending and receiving that we found: four blocks at a time, `unsafe`, in portable Rust with no vector instructions written
//! out, compiled for the same processors as the library. Same contract, nothing proved: a yardstick. What is rare is left to `fast`.
use crate::fast::{
    add_counts, decode, encode, put_words, refuse, tables_of, transmit, Fault, Kind, State, Tables, CONTROL, DATA,
    ERRORS, ERROR_PAYLOAD, IDLES, IDLE_PAYLOAD, LOCAL_FAULT, LOW_POWER, LOW_POWER_PAYLOAD, TERMINATES,
};
use std::ptr;

// ---- both diagrams

const STATES: [State; 6] = [State::Init, State::C, State::D, State::T, State::E, State::LI];

/// A state is held as eight times its number: as far as a row's `after` is shifted to find the next one.
type Place = u32;
const INIT: Place = place(State::Init);
const C: Place = place(State::C);
const D: Place = place(State::D);
const T: Place = place(State::T);
const E: Place = place(State::E);
const LI: Place = place(State::LI);

const fn place(state: State) -> Place {
    8 * state as Place
}

/// Marks a next state `E`: the block is not answered as it is. So it is too where a Terminate is taken back.
const RARE: u64 = 0x40;

/// The state after each state for a kind, a byte each.
const fn all_after(kind: Kind) -> u64 {
    let (mut all, mut i) = (0, 0);
    while i < STATES.len() {
        let next = transmit(STATES[i], kind);
        let rare = if matches!(next, State::E) { RARE } else { 0 };
        all |= (place(next) as u64 | rare) << (8 * i);
        i += 1;
    }
    all
}

/// The same by the number of the kind.
const AFTER: [u64; 6] = [
    all_after(Kind::D),
    all_after(Kind::C),
    all_after(Kind::S),
    all_after(Kind::T),
    all_after(Kind::E),
    all_after(Kind::LI),
];

/// In receiving, Terminate is accepted at once, and taken back where a block of such a kind follows.
const fn takes_back(kind: Kind) -> bool {
    !matches!(kind, Kind::S | Kind::C | Kind::LI)
}

/// Of a row that nothing is answered by.
const ALL_RARE: u64 = 0x4040_4040_4040_4040;

// ---- memory

#[inline(always)]
unsafe fn load16(from: *const u8) -> u64 {
    u16::from_le(ptr::read_unaligned(from as *const u16)) as u64
}

#[inline(always)]
unsafe fn load32(from: *const u8) -> u64 {
    u32::from_le(ptr::read_unaligned(from as *const u32)) as u64
}

#[inline(always)]
unsafe fn load64(from: *const u8) -> u64 {
    u64::from_le(ptr::read_unaligned(from as *const u64))
}

#[inline(always)]
unsafe fn store32(to: *mut u8, word: u64) {
    ptr::write_unaligned(to as *mut u32, (word as u32).to_le());
}

#[inline(always)]
unsafe fn store64(to: *mut u8, word: u64) {
    ptr::write_unaligned(to as *mut u64, word.to_le());
}

/// Element `i` of what `of` numbers: below 512.
#[inline(always)]
unsafe fn row_at<Row>(rows: &'static [Row], of: &'static [u8; 512], i: u64) -> &'static Row {
    rows.get_unchecked(*of.get_unchecked(i as usize) as usize)
}

/// A vector: the second half over the end of the first.
#[inline(always)]
unsafe fn put(out: *mut u8, flags: u64, octets: u64) {
    store64(out, octets << 8 | flags & 15);
    *out.add(5) = (flags >> 4) as u8;
    store32(out.add(6), octets >> 32);
}

/// Four equal vectors.
#[inline(always)]
unsafe fn put_four(out: *mut u8, words: &[u64; 5]) {
    for (i, word) in words.iter().enumerate() {
        store64(out.add(8 * i), *word);
    }
}

/// The forty bytes of four equal vectors.
const fn four(flags: u64, octets: u64) -> [u64; 5] {
    let (mut words, mut i) = ([0; 5], 0);
    while i < 40 {
        let byte = match i % 10 {
            0 => flags & 15,
            5 => flags >> 4,
            lane if lane < 5 => octets >> (8 * (lane - 1)) & 255,
            lane => octets >> (8 * (lane - 2)) & 255,
        };
        words[i / 8] |= byte << (8 * (i % 8));
        i += 1;
    }
    words
}

const FOUR_IDLE: [u64; 5] = four(0xff, IDLES);
const FOUR_LOW_POWER: [u64; 5] = four(0xff, LOW_POWER);
const FOUR_LOCAL_FAULT: [u64; 5] = four(0x11, LOCAL_FAULT);

// ---- the scrambler

/// Each bit with those 39 and 58 before it, some of them in the word before.
#[inline(always)]
fn descrambled(word: u64, before: u64) -> u64 {
    word ^ (word << 39 | before >> 25) ^ (word << 58 | before >> 6)
}

// ---- receiving

/// How blocks of one type are answered whose codes are all 0: idles, and ordered sets of code 0.
#[derive(Clone, Copy)]
struct Row {
    /// The bits of its codes.
    codes: u64,
    /// The data octets that stand in the vector as in the payload, and those that stand an octet lower.
    same: u64,
    lower: u64,
    /// The other characters.
    fixed: u64,
    after: u64,
    flags: u64,
    begins: u64,
}

/// Rows in this order: data, the eight Terminates, seven other types, none.
const NO_ROW: usize = 16;
static ROWS: [Row; 17] = rows();
/// The row of each type, then of data.
static ROW_OF: [u8; 512] = row_of();

const OTHER_TYPES: [u64; 7] = [0x1e, 0x2d, 0x33, 0x66, 0x55, 0x78, 0x4b];

const fn row_of() -> [u8; 512] {
    let mut rows = [NO_ROW as u8; 512];
    let mut i = 0;
    while i < 256 {
        rows[256 + i] = 0;
        i += 1;
    }
    i = 0;
    while i < 8 {
        rows[TERMINATES[i] as usize] = 1 + i as u8;
        i += 1;
    }
    i = 0;
    while i < 7 {
        rows[OTHER_TYPES[i] as usize] = 9 + i as u8;
        i += 1;
    }
    rows
}

const fn row(kind: Kind, flags: u64, codes: u64, same: u64, lower: u64, fixed: u64) -> Row {
    let begins = matches!(kind, Kind::S) as u64;
    Row { codes, same, lower, fixed, after: AFTER[kind as usize], flags, begins }
}

const fn rows() -> [Row; 17] {
    const LOW: u64 = 0xffff_ff00; // D1 to D3
    const HIGH: u64 = 0xffff_ff00_0000_0000; // D5 to D7
    let none = Row { codes: 0, same: 0, lower: 0, fixed: 0, after: ALL_RARE, flags: 0, begins: 0 };
    let mut rows = [none; 17];
    rows[0] = row(Kind::D, 0, 0, !0, 0, 0);
    let mut k = 0;
    while k < 8 {
        let codes = if k < 7 { !0 << (15 + 7 * k) } else { 0 };
        let data = !(!0 << (8 * k));
        rows[1 + k] = row(Kind::T, 0xff << k & 0xff, codes, 0, data, 0x0707_0707_0707_07fd << (8 * k));
        k += 1;
    }
    rows[9] = row(Kind::C, 0xff, !0xff, 0, 0, IDLES);
    rows[10] = row(Kind::C, 0x1f, 0xff_ffff_ff00, HIGH, 0, 0x9c_0707_0707);
    rows[11] = row(Kind::S, 0x1f, 0xf_ffff_ff00, HIGH, 0, 0xfb_0707_0707);
    rows[12] = row(Kind::S, 0x11, 0xf << 32, LOW | HIGH, 0, 0xfb_0000_009c);
    rows[13] = row(Kind::C, 0x11, 0xff << 32, LOW | HIGH, 0, 0x9c_0000_009c);
    rows[14] = row(Kind::S, 0x01, 0, !0xff, 0, 0xfb);
    rows[15] = row(Kind::C, 0xf1, 0xffff_ffff << 32, LOW, 0, 0x0707_0707_0000_009c);
    rows
}

/// What header and type say of a block that is not answered: that its type is bad, that its codes decide, or neither. The index is the
/// type and then the header. (A bad header is a slip, and counted there.)
static AT_ONCE: [u8; 1024] = at_once();
const BAD_TYPE: u8 = 1;
const CODES: u8 = 2;

const fn at_once() -> [u8; 1024] {
    let mut table = [0; 1024];
    let rows = row_of();
    let mut byte = 0;
    while byte < 256 {
        table[4 * byte + CONTROL as usize] = if rows[byte] == NO_ROW as u8 { BAD_TYPE } else { CODES };
        byte += 1;
    }
    table
}

struct Receiver {
    tables: &'static Tables,
    line: *const u8,
    bytes: usize,
    /// The next line bit, and where the next vector stands.
    at: usize,
    out: *mut u8,
    tested: u32,
    invalid: u32,
    locked: bool,
    window: u32,
    window_invalid: u32,
    high: bool,
    last: u64,
    state: Place,
    slips: u64,
    faults: [u64; 4],
    begun: u64,
    replaced: u64,
}

const WINDOW: u32 = 19_531;
/// After so many valid headers in a row the next ones are likely to be valid too.
const LIKELY: u32 = 8;

impl Receiver {
    /// Header and payload at line bit `at`, of a block that is all there.
    #[inline(always)]
    unsafe fn block_at(&self, at: usize) -> (u64, u64) {
        let (byte, shift) = (at / 8, at % 8);
        let low = load64(self.line.add(byte)) >> shift;
        let ninth = *self.line.add(byte + 8) as u64;
        let tenth = if byte + 9 < self.bytes { *self.line.add(byte + 9) as u64 } else { 0 };
        (low & 3, low >> 2 | (ninth | tenth << 8) << (62 - shift))
    }

    #[inline(always)]
    fn count(&mut self, fault: Fault) {
        self.faults[fault as usize] += 1;
    }

    /// Any block that is tested, in any condition.
    unsafe fn one(&mut self) {
        let (header, payload) = self.block_at(self.at);
        let invalid = (header ^ header >> 1) & 1 == 0;
        let was_locked = self.locked;
        let slips = self.lock(invalid);
        self.rate(was_locked, invalid);
        let plain = descrambled(payload, self.last);
        self.last = payload;
        self.at += 66 + slips as usize;
        self.slips += slips as u64;
        if invalid {
            self.count(Fault::Header);
        }
        if !self.locked || self.high {
            if !invalid && header == CONTROL {
                self.look_at_codes(plain);
            }
            self.take_back(Kind::Down, self.state, self.out);
            self.state = INIT;
            put(self.out, 0x11, LOCAL_FAULT);
        } else if invalid {
            self.state = self.answer((Kind::E, 0, 0), self.state, self.out);
        } else {
            self.state = self.rare(header == DATA, plain, self.state, self.out);
        }
        self.out = self.out.add(10);
    }

    /// Updates lock; true where it slips.
    #[inline(always)]
    fn lock(&mut self, invalid: bool) -> bool {
        self.tested += 1;
        self.invalid += invalid as u32;
        if invalid && (!self.locked || self.invalid == 16) {
            (self.tested, self.invalid, self.locked) = (0, 0, false);
            return true;
        }
        if self.tested == 64 {
            self.locked |= self.invalid == 0;
            (self.tested, self.invalid) = (0, 0);
        }
        false
    }

    /// Updates the error rate.
    #[inline(always)]
    fn rate(&mut self, was_locked: bool, invalid: bool) {
        if !self.locked || !was_locked {
            (self.window, self.window_invalid, self.high) = (0, 0, false);
            return;
        }
        self.window += 1;
        self.window_invalid += invalid as u32;
        self.high |= self.window_invalid >= 16;
        if self.window == WINDOW {
            self.high = self.window_invalid >= 16;
            (self.window, self.window_invalid) = (0, 0);
        }
    }

    /// Counts what is bad in a control block that is not answered.
    #[inline(always)]
    fn look_at_codes(&mut self, plain: u64) {
        let row = ROW_OF[plain as usize & 255] as usize;
        if row == NO_ROW || plain & ROWS[row].codes != 0 {
            self.look_closely(plain);
        }
    }

    #[cold]
    #[inline(never)]
    fn look_closely(&mut self, plain: u64) {
        if let Err(fault) = decode(self.tables, plain) {
            self.count(fault);
        }
    }

    /// A block with a valid header, in lock: the vector that stands at `out` for it, and the next state.
    #[cold]
    #[inline(never)]
    unsafe fn rare(&mut self, data: bool, plain: u64, state: Place, out: *mut u8) -> Place {
        let decoded = match plain {
            _ if data => (Kind::D, 0, plain),
            LOW_POWER_PAYLOAD if self.tables.low_power => (Kind::LI, 0xff, LOW_POWER),
            _ => decode(self.tables, plain).unwrap_or_else(|fault| {
                self.count(fault);
                (Kind::E, 0, 0)
            }),
        };
        self.answer(decoded, state, out)
    }

    /// The same, by its row where that does: the next state, and whether a frame begins that `rare` did not count.
    #[inline(always)]
    unsafe fn answer_by_row(&mut self, data: bool, plain: u64, state: Place, out: *mut u8) -> (Place, u64) {
        let row = row_at(&ROWS, &ROW_OF, (data as u64) << 8 | plain & 255);
        let next = row.after >> state;
        if data && state == D {
            put(out, 0, plain);
            (D, 0)
        } else if plain & row.codes != 0 || next & RARE != 0 {
            (self.rare(data, plain, state, out), 0)
        } else {
            put(out, row.flags, plain & row.same | plain >> 8 & row.lower | row.fixed);
            (next as Place & 63, row.begins)
        }
    }

    #[inline(always)]
    unsafe fn answer(&mut self, (kind, flags, octets): (Kind, u8, u64), state: Place, out: *mut u8) -> Place {
        let state = self.take_back(kind, state, out);
        let next = place(transmit(STATES[state as usize / 8], kind));
        if next == E {
            self.replaced += 1;
            put(out, 0xff, ERRORS);
        } else {
            self.begun += (kind == Kind::S) as u64;
            put(out, flags as u64, octets);
        }
        next
    }

    /// Takes back a Terminate before `out` that a block of this kind must not follow.
    #[inline(always)]
    unsafe fn take_back(&mut self, kind: Kind, state: Place, out: *mut u8) -> Place {
        if state != T || !takes_back(kind) {
            return state;
        }
        self.replaced += 1;
        put(out.sub(10), 0xff, ERRORS);
        E
    }

    /// While not locked, four blocks at a time, up to where lock is likely or the line may end. Where a block stands depends on all headers
    /// before it; so that this chain is short, each of the four is read from where it stands without a slip, and the
    /// slips since then say how far to shift.
    #[inline(always)]
    unsafe fn hunt(&mut self) {
        let (mut at, mut out, mut tested) = (self.at, self.out, self.tested);
        let (mut slips, mut bad_types) = (0, 0);
        let mut last_at = usize::MAX;
        let mut before = self.last << 2;
        while at + 8 * GROUP_BYTES <= 8 * self.bytes && tested < LIKELY {
            let from = self.line.add(at / 8);
            let mut shift = at as u64 % 8;
            let (mut seen, mut places) = ([0; 4], [0; 4]);
            for i in 0..4 {
                let word = load64(from.add(8 * i)) >> (2 * i);
                let equal = !(word ^ word >> 1);
                let block = word >> shift;
                seen[i] = AT_ONCE[((block ^ (before >> 6 ^ before >> 25) & !3) & 1023) as usize];
                places[i] = at / 8 * 8 + 66 * i + shift as usize;
                before = block;
                let bad = equal >> shift & 1;
                tested = (tested + 1) & (bad as u32).wrapping_sub(1);
                shift += bad;
            }
            bad_types += seen.iter().map(|seen| (seen & BAD_TYPE) as u64).sum::<u64>();
            if (seen[0] | seen[1] | seen[2] | seen[3]) & CODES != 0 {
                self.look_at_four(seen, places, last_at);
            }
            last_at = places[3];
            put_four(out, &FOUR_LOCAL_FAULT);
            out = out.add(40);
            let slipped = shift - at as u64 % 8;
            at += 264 + slipped as usize;
            slips += slipped;
        }
        if last_at != usize::MAX {
            self.last = self.block_at(last_at).1;
        }
        self.slips += slips;
        self.faults[Fault::Header as usize] += slips;
        self.faults[Fault::Type as usize] += bad_types;
        (self.at, self.out, self.tested) = (at, out, tested);
    }

    /// Counts what is bad in those of four blocks whose codes decide; before them one was tested at `last_at`.
    #[inline(never)]
    unsafe fn look_at_four(&mut self, seen: [u8; 4], places: [usize; 4], last_at: usize) {
        let mut last = if last_at == usize::MAX { self.last } else { self.block_at(last_at).1 };
        for (seen, place) in seen.into_iter().zip(places) {
            let payload = self.block_at(place).1;
            if seen & CODES != 0 {
                self.look_at_codes(descrambled(payload, last));
            }
            last = payload;
        }
    }

    /// Groups of four blocks with valid headers: while not locked as far as lock is not given, in lock as far as the window goes. The error
    /// rate is not high.
    #[inline(always)]
    unsafe fn groups(&mut self) {
        match self.at % 8 {
            0 => self.groups_at::<0>(),
            1 => self.groups_at::<1>(),
            2 => self.groups_at::<2>(),
            3 => self.groups_at::<3>(),
            4 => self.groups_at::<4>(),
            5 => self.groups_at::<5>(),
            6 => self.groups_at::<6>(),
            _ => self.groups_at::<7>(),
        }
    }

    /// The same where blocks begin at bit `SHIFT` of a byte: all shifts are then constants.
    #[inline(always)]
    unsafe fn groups_at<const SHIFT: u32>(&mut self) {
        if self.locked {
            self.locked_groups::<SHIFT>();
        } else {
            self.likely_groups::<SHIFT>();
        }
    }

    #[inline(never)]
    unsafe fn likely_groups<const SHIFT: u32>(&mut self) {
        while self.tested < 60 && self.at + 8 * GROUP_BYTES <= 8 * self.bytes {
            let group = Group::<SHIFT>::at(self.line.add(self.at / 8));
            let headers = group.headers();
            if !Group::<SHIFT>::valid(headers) {
                break;
            }
            let (plain, fourth) = group.plain(self.last);
            for (i, plain) in plain.into_iter().enumerate() {
                if headers >> (SHIFT as usize + 2 * i) & 1 == CONTROL {
                    self.look_at_codes(plain);
                }
            }
            self.last = fourth;
            put_four(self.out, &FOUR_LOCAL_FAULT);
            self.out = self.out.add(40);
            self.at += 264;
            self.tested += 4;
        }
    }

    #[inline(never)]
    unsafe fn locked_groups<const SHIFT: u32>(&mut self) {
        let mut from = self.line.add(self.at / 8);
        let end = self.line.add(self.bytes);
        let room = (WINDOW - 1 - self.window) / 4;
        let mut left = room;
        let (mut last, mut state, mut out, mut begun) = (self.last, self.state, self.out, 0);
        while left > 0 && end.offset_from(from) >= GROUP_BYTES as isize {
            let group = Group::<SHIFT>::at(from);
            let headers = group.headers();
            let (plain, fourth) = group.plain(last);
            if headers == Group::<SHIFT>::ALL_DATA && (state == D || state == E) {
                put(out, 0, plain[0]);
                put(out.add(10), 0, plain[1]);
                put(out.add(20), 0, plain[2]);
                put(out.add(30), 0, plain[3]);
                last = fourth;
                from = from.add(33);
                out = out.add(40);
                left -= 1;
                state = D;
                continue;
            }
            let all = |payload| plain.iter().fold(0, |differ, p| differ | p ^ payload) == 0;
            if headers == Group::<SHIFT>::ALL_CONTROL && all(IDLE_PAYLOAD) && state != D {
                put_four(out, &FOUR_IDLE);
                state = C;
            } else if headers == Group::<SHIFT>::ALL_CONTROL && all(LOW_POWER_PAYLOAD) && state == LI {
                put_four(out, &FOUR_LOW_POWER);
            } else if !Group::<SHIFT>::valid(headers) {
                break;
            } else {
                for (i, plain) in plain.into_iter().enumerate() {
                    let data = headers >> (SHIFT as usize + 1 + 2 * i) & 1 != 0;
                    let (next, begins) = self.answer_by_row(data, plain, state, out.add(10 * i));
                    state = next;
                    begun += begins;
                }
            }
            last = fourth;
            from = from.add(33);
            out = out.add(40);
            left -= 1;
        }
        let done = 4 * (room - left);
        self.window += done;
        if self.tested + done >= 64 {
            self.invalid = 0;
        }
        self.tested = (self.tested + done) % 64;
        self.at = 8 * from.offset_from(self.line) as usize + SHIFT as usize;
        self.begun += begun;
        (self.last, self.state, self.out) = (last, state, out);
    }
}

/// Four blocks lie in so many bytes, wherever in the first they begin.
const GROUP_BYTES: usize = 34;

/// Four blocks that begin at bit `SHIFT` of a byte: block i begins at bit `SHIFT` + 2 i of word i.
struct Group<const SHIFT: u32> {
    words: [u64; 5],
}

impl<const SHIFT: u32> Group<SHIFT> {
    const ALL_DATA: u64 = 0xaa << SHIFT;
    const ALL_CONTROL: u64 = 0x55 << SHIFT;

    #[inline(always)]
    unsafe fn at(from: *const u8) -> Group<SHIFT> {
        let words =
            [load64(from), load64(from.add(8)), load64(from.add(16)), load64(from.add(24)), load16(from.add(32))];
        Group { words }
    }

    /// The four headers, from bit `SHIFT` on.
    #[inline(always)]
    fn headers(&self) -> u64 {
        let [w0, w1, w2, w3, _] = self.words;
        w0 & 0x03 << SHIFT | w1 & 0x0c << SHIFT | w2 & 0x30 << SHIFT | w3 & 0xc0 << SHIFT
    }

    #[inline(always)]
    fn valid(headers: u64) -> bool {
        (headers ^ headers >> 1) & Self::ALL_CONTROL == Self::ALL_CONTROL
    }

    /// The four payloads descrambled, and the last as it came.
    #[inline(always)]
    fn plain(&self, last: u64) -> ([u64; 4], u64) {
        let [p0, p1, p2, p3] = self.payloads();
        ([descrambled(p0, last), descrambled(p1, p0), descrambled(p2, p1), descrambled(p3, p2)], p3)
    }

    #[inline(always)]
    fn payloads(&self) -> [u64; 4] {
        let [w0, w1, w2, w3, w4] = self.words;
        [
            w0 >> (SHIFT + 2) | w1 << (62 - SHIFT),
            w1 >> (SHIFT + 4) | w2 << (60 - SHIFT),
            w2 >> (SHIFT + 6) | w3 << (58 - SHIFT),
            w3 >> (SHIFT + 8) | w4 << (56 - SHIFT),
        ]
    }
}

#[inline(never)]
pub fn receive(edition: u64, line: &[u8], vectors: &mut [u8], summary: &mut [u8], counters: &mut [u8]) -> u64 {
    let Some(tables) = tables_of(edition) else {
        return refuse(summary, 12, 13, 0);
    };
    if line.len() > 825_000 {
        return refuse(summary, 12, 1, 0);
    }
    let bits = 8 * line.len();
    let counters = match counters.first_chunk_mut() {
        Some(counters) if vectors.len() >= bits / 66 * 10 && summary.len() >= 96 => counters,
        _ => return refuse(summary, 12, 4, 0),
    };
    let room = vectors.as_mut_ptr();
    let mut r = Receiver {
        tables,
        line: line.as_ptr(),
        bytes: line.len(),
        at: 0,
        out: room,
        tested: 0,
        invalid: 0,
        locked: false,
        window: 0,
        window_invalid: 0,
        high: false,
        last: 0,
        state: INIT,
        slips: 0,
        faults: [0; 4],
        begun: 0,
        replaced: 0,
    };
    // Safety: a block is read only where 66 bits of the line are left, and there are no more blocks than vectors that fit the room.
    let tested = unsafe {
        while r.at + 66 <= bits {
            if r.at + 8 * GROUP_BYTES <= bits {
                if !r.locked {
                    r.hunt();
                }
                if !r.high && (r.locked || r.tested >= LIKELY) {
                    r.groups();
                }
            }
            if r.at + 66 <= bits {
                r.one();
            }
        }
        r.out.offset_from(room) as u64 / 10
    };
    let [header, type_byte, control_code, set_code] = r.faults;
    let (locked, high, alone) = (r.locked as u64, r.high as u64, (r.state == T) as u64);
    let (slips, begun, replaced) = (r.slips, r.begun, r.replaced);
    let words =
        [tested, slips, locked, high, tested, header, type_byte, control_code, set_code, alone, begun, replaced];
    put_words(summary, &words);
    add_counts(counters, [tested, slips, header, type_byte, control_code, set_code, begun, replaced]);
    0
}

// ---- sending

/// How vectors with these control characters are sent whose other characters are idles.
#[derive(Clone, Copy)]
#[repr(align(64))]
struct SendRow {
    /// The data octets that stand in the payload as in the vector, and those that stand an octet higher.
    same: u64,
    higher: u64,
    /// The places of the other characters, and what they must be.
    others: u64,
    fixed: u64,
    type_byte: u64,
    header: u64,
    after: u64,
}

/// Rows in this order: data, idles, Start, the eight Terminates, those that `encode` looks at, those of no format.
static SEND_ROWS: [SendRow; 13] = send_rows();
const TO_ENCODE: u8 = 11;
const NO_FORMAT: u8 = 12;
/// The row of each set of control characters; then where the first octet is that of Terminate.
static SEND_ROW_OF: [u8; 512] = send_row_of();

const fn send_rows() -> [SendRow; 13] {
    let [same, higher, others, fixed, type_byte, header, after] = [0, 0, 0, 0, 0, CONTROL, AFTER[Kind::E as usize]];
    let no_format = SendRow { same, higher, others, fixed, type_byte, header, after };
    let mut rows = [no_format; 13];
    rows[0] = SendRow { same: !0, header: DATA, after: AFTER[Kind::D as usize], ..no_format };
    rows[1] = SendRow { others: !0, fixed: IDLES, type_byte: 0x1e, after: AFTER[Kind::C as usize], ..no_format };
    let (start, after) = (0xff, AFTER[Kind::S as usize]);
    rows[2] = SendRow { same: !start, others: start, fixed: 0xfb, type_byte: 0x78, after, ..no_format };
    let mut k = 0;
    while k < 8 {
        let (higher, others) = (!(!0 << (8 * k)) << 8, !0 << (8 * k));
        let (fixed, type_byte) = (0x0707_0707_0707_07fd << (8 * k), TERMINATES[k]);
        let after = AFTER[Kind::T as usize];
        rows[3 + k] = SendRow { same: 0, higher, others, fixed, type_byte, header: CONTROL, after };
        k += 1;
    }
    rows[TO_ENCODE as usize] = SendRow { fixed: 1, ..no_format };
    rows
}

const fn send_row_of() -> [u8; 512] {
    let mut rows = [NO_FORMAT; 512];
    (rows[0], rows[256]) = (0, 0);
    (rows[0xff], rows[256 + 0xff]) = (1, 3);
    rows[0x01] = 2;
    (rows[0x1f], rows[256 + 0x1f]) = (TO_ENCODE, TO_ENCODE);
    (rows[0x11], rows[256 + 0x11]) = (TO_ENCODE, TO_ENCODE);
    (rows[0xf1], rows[256 + 0xf1]) = (TO_ENCODE, TO_ENCODE);
    let mut k = 1;
    while k < 8 {
        let flags = 0xff << k & 0xff;
        (rows[flags], rows[256 + flags]) = (3 + k as u8, 3 + k as u8);
        k += 1;
    }
    rows
}

/// Header, payload and what follows, of a vector that is not as its row says.
#[cold]
#[inline(never)]
fn encode_closely(tables: &Tables, flags: u64, octets: u64) -> (u64, u64, u64) {
    if tables.low_power && flags == 0xff && octets == LOW_POWER {
        return (CONTROL, LOW_POWER_PAYLOAD, AFTER[Kind::LI as usize]);
    }
    let (kind, plain) = encode(tables, flags, octets).unwrap_or((Kind::E, ERROR_PAYLOAD));
    (CONTROL, plain, AFTER[kind as usize])
}

/// Header and payload of the error block. Cold: a branch to it that is foreseen is cheaper than a choice.
#[cold]
#[inline(always)]
fn error() -> (u64, u64) {
    (CONTROL, ERROR_PAYLOAD)
}

/// What sending carries from block to block: where the next vectors are, where the last ones end, where the next blocks go.
struct Sender {
    tables: &'static Tables,
    from: *const u8,
    end: *const u8,
    out: *mut u8,
    last: u64,
    state: Place,
    replaced: u64,
}

impl Sender {
    /// Header and payload of a vector.
    #[inline(always)]
    unsafe fn block(&mut self, (flags, octets): (u64, u64)) -> (u64, u64) {
        if flags == 0 && self.state == D {
            return (DATA, self.scrambled(octets));
        }
        let ends = (octets & 255 == 0xfd) as u64;
        let row = row_at(&SEND_ROWS, &SEND_ROW_OF, ends << 8 | flags);
        let mut header = row.header;
        let mut plain = octets & row.same | octets << 8 & row.higher | row.type_byte;
        let mut after = row.after;
        if octets & row.others != row.fixed {
            (header, plain, after) = encode_closely(self.tables, flags, octets);
        }
        let next = after >> self.state;
        self.state = next as Place & 63;
        if next & RARE != 0 {
            (header, plain) = error();
            self.replaced += 1;
        }
        (header, self.scrambled(plain))
    }

    /// Four vectors of any kind.
    #[inline(always)]
    unsafe fn four(&mut self) {
        let blocks = [0, 1, 2, 3].map(|i| self.block(vector_at(self.from.add(10 * i))));
        self.put(blocks.map(|block| block.0), blocks.map(|block| block.1));
    }

    /// Four vectors that are as `goes_on` says, which keep the state, and all groups after them that are so too.
    #[inline(always)]
    unsafe fn stretch(&mut self, header: u64, goes_on: impl Fn(*const u8) -> bool, payload: impl Fn(*const u8) -> u64) {
        let mut stretch = Stretch::after(self.last);
        loop {
            let payloads = [0, 1, 2, 3].map(|i| stretch.scrambled(payload(self.from.add(10 * i))));
            self.put([header; 4], payloads);
            if self.from == self.end || !goes_on(self.from) {
                break;
            }
        }
        self.last = stretch.last;
    }

    /// Four blocks: block i begins at bit 2 i of word i.
    #[inline(always)]
    unsafe fn put(&mut self, [h0, h1, h2, h3]: [u64; 4], [p0, p1, p2, p3]: [u64; 4]) {
        store64(self.out, h0 | p0 << 2);
        store64(self.out.add(8), p0 >> 62 | h1 << 2 | p1 << 4);
        store64(self.out.add(16), p1 >> 60 | h2 << 4 | p2 << 6);
        store64(self.out.add(24), p2 >> 58 | h3 << 6 | p3 << 8);
        *self.out.add(32) = (p3 >> 56) as u8;
        self.from = self.from.add(40);
        self.out = self.out.add(33);
    }

    /// Of 64 bits the first 39 depend on those before alone, and the others on the first 25 besides.
    #[inline(always)]
    fn scrambled(&mut self, plain: u64) -> u64 {
        let from_last = plain ^ self.last >> 25 ^ self.last >> 6;
        self.last = from_last ^ from_last << 39 ^ from_last << 58;
        self.last
    }
}

/// Control flags and octets of a vector.
#[inline(always)]
unsafe fn vector_at(from: *const u8) -> (u64, u64) {
    let flags = *from as u64 | (*from.add(5) as u64) << 4;
    (flags, load32(from.add(1)) | load32(from.add(6)) << 32)
}

/// Are four vectors data?
#[inline(always)]
unsafe fn is_data(from: *const u8) -> bool {
    let controls = |i: usize| *from.add(i) | *from.add(i + 5) | *from.add(i + 10) | *from.add(i + 15);
    controls(0) | controls(20) == 0
}

/// Are four vectors these?
#[inline(always)]
unsafe fn is_four(from: *const u8, four: &[u64; 5]) -> bool {
    load64(from) == four[0] && (1..5).fold(0, |differ, i| differ | load64(from.add(8 * i)) ^ four[i]) == 0
}

/// A scrambled bit is the sum of its plain bit and those sent 39 and 58 before it; squared, it is the sum of the plain bits 0, 39 and 58
/// before, and those sent 78 and 116 before: a shorter way from payload to payload.
struct Stretch {
    last: u64,
    last_but_one: u64,
    plain: u64,
}

impl Stretch {
    /// Any payload before the last does, if what the last was before scrambling is computed from it.
    #[inline(always)]
    fn after(last: u64) -> Stretch {
        Stretch { last, last_but_one: 0, plain: descrambled(last, 0) }
    }

    #[inline(always)]
    fn scrambled(&mut self, plain: u64) -> u64 {
        let own = descrambled(plain, self.plain) ^ self.last_but_one >> 50 ^ self.last_but_one >> 12;
        let sent = own ^ self.last << 14 ^ self.last << 52;
        *self = Stretch { last: sent, last_but_one: self.last, plain };
        sent
    }
}

/// Is a control byte above 15? The five words of each group are joined; eight of their bytes are control bytes.
fn has_high_control(vectors: &[u8]) -> bool {
    let mut joined = [0; 5];
    for group in vectors.chunks_exact(40) {
        for (i, word) in joined.iter_mut().enumerate() {
            *word |= u64::from_le_bytes(group[8 * i..8 * i + 8].try_into().unwrap());
        }
    }
    (0..8).any(|word| joined[5 * word / 8] >> (8 * (5 * word % 8)) & 0xf0 != 0)
}

#[inline(never)]
pub fn send(edition: u64, vectors: &[u8], start: u64, line: &mut [u8], summary: &mut [u8]) -> u64 {
    let Some(tables) = tables_of(edition) else {
        return refuse(summary, 3, 13, 0);
    };
    if vectors.len() > 1_000_000 {
        return refuse(summary, 3, 1, 0);
    }
    if vectors.len() % 40 != 0 {
        return refuse(summary, 3, 2, 0);
    }
    if start >= 1 << 58 {
        return refuse(summary, 3, 3, 0);
    }
    if line.len() < vectors.len() / 40 * 33 || summary.len() < 24 {
        return refuse(summary, 3, 4, 0);
    }
    if has_high_control(vectors) {
        let word = vectors.chunks_exact(5).position(|word| word[0] > 15).unwrap_or(0);
        return refuse(summary, 3, 5, 5 * word);
    }
    let range = vectors.as_ptr_range();
    let (from, end, out) = (range.start, range.end, line.as_mut_ptr());
    let mut s = Sender { tables, from, end, out, last: start.reverse_bits(), state: INIT, replaced: 0 };
    // Safety: there are whole groups of four vectors, and room for each.
    unsafe {
        while s.from != s.end {
            if (s.state == D || s.state == E) && is_data(s.from) {
                s.state = D;
                s.stretch(DATA, |f| is_data(f), |f| vector_at(f).1);
            } else if s.state != D && is_four(s.from, &FOUR_IDLE) {
                s.state = C;
                s.stretch(CONTROL, |f| is_four(f, &FOUR_IDLE), |_| IDLE_PAYLOAD);
            } else if s.state == LI && is_four(s.from, &FOUR_LOW_POWER) {
                s.stretch(CONTROL, |f| is_four(f, &FOUR_LOW_POWER), |_| LOW_POWER_PAYLOAD);
            } else {
                s.four();
            }
        }
    }
    let state = s.last.reverse_bits() & ((1 << 58) - 1);
    put_words(summary, &[state, s.state as u64 / 8, s.replaced]);
    0
}
