//! Sending and receiving as a good programmer would write them: a block at a time, 64 bits at once, small tables. Same contract as the
//! library, nothing proved. The benchmark times it beside the library once the two have given the same bytes.

/// Control octets and their 7-bit codes. The new edition adds the last, low power idle.
#[rustfmt::skip]
const CHARACTERS: [(u8, u8); 9] = [
    (0x07, 0x00), (0xfe, 0x1e), (0x1c, 0x2d), (0x3c, 0x33), (0x7c, 0x4b), (0xbc, 0x55), (0xdc, 0x66), (0xf7, 0x78),
    (0x06, 0x06),
];

/// What the characters of an edition are.
pub struct Tables {
    /// 7-bit code of each control octet; `NONE` where there is none.
    code: [u8; 256],
    /// Octet of each 7-bit code. No control character is 0, so 0 says that there is none.
    octet: [u8; 128],
    /// Is low power idle one of them?
    pub low_power: bool,
}

const NONE: u8 = 0x80;
static OLD: Tables = tables(8);
static NEW: Tables = tables(9);

/// The tables of the first `count` characters.
const fn tables(count: usize) -> Tables {
    let mut tables = Tables { code: [NONE; 256], octet: [0; 128], low_power: count == 9 };
    let mut i = 0;
    while i < count {
        let (octet, code) = CHARACTERS[i];
        tables.code[octet as usize] = code;
        tables.octet[code as usize] = octet;
        i += 1;
    }
    tables
}

pub fn tables_of(edition: u64) -> Option<&'static Tables> {
    match edition {
        0 => Some(&OLD),
        1 => Some(&NEW),
        _ => None,
    }
}

pub const IDLES: u64 = 0x0707_0707_0707_0707;
pub const LOW_POWER: u64 = 0x0606_0606_0606_0606;
pub const ERRORS: u64 = 0xfefe_fefe_fefe_fefe;
pub const LOCAL_FAULT: u64 = 0x0100_009c_0100_009c;
pub const IDLE_PAYLOAD: u64 = 0x1e;
pub const LOW_POWER_PAYLOAD: u64 = 0x0c18_3060_c183_061e;
pub const ERROR_PAYLOAD: u64 = 0x3c78_f1e3_c78f_1e1e;
pub const DATA: u64 = 2;
pub const CONTROL: u64 = 1;

/// The types of terminate blocks, by where Terminate stands.
pub const TERMINATES: [u64; 8] = [0x87, 0x99, 0xaa, 0xb4, 0xcc, 0xd2, 0xe1, 0xff];

#[derive(Clone, Copy, PartialEq, Eq)]
#[repr(u8)]
pub enum Kind {
    D,
    C,
    S,
    T,
    E,
    LI,
    /// Of a received block that leaves the receiver not locked or high.
    Down,
}

#[derive(Clone, Copy, PartialEq, Eq)]
#[repr(u8)]
pub enum State {
    Init,
    C,
    D,
    T,
    E,
    LI,
}

pub fn put_words(summary: &mut [u8], words: &[u64]) {
    for (place, word) in summary.chunks_exact_mut(8).zip(words) {
        place.copy_from_slice(&word.to_le_bytes());
    }
}

/// A refusal's result; zeros in a summary that has room for them.
pub fn refuse(summary: &mut [u8], words: usize, number: u64, place: usize) -> u64 {
    if summary.len() >= 8 * words {
        summary[..8 * words].fill(0);
    }
    number + 256 * place as u64
}

#[inline(always)]
fn load32(bytes: &[u8], at: usize) -> u64 {
    u32::from_le_bytes(bytes[at..at + 4].try_into().unwrap()) as u64
}

#[inline(always)]
fn load64(bytes: &[u8], at: usize) -> u64 {
    u64::from_le_bytes(bytes[at..at + 8].try_into().unwrap())
}

// ---- sending

/// The 7-bit codes of characters `from` to `to`, packed; `None` where one has no code.
#[inline(always)]
fn pack_codes(tables: &Tables, octets: u64, from: u32, to: u32) -> Option<u64> {
    let (mut packed, mut bad) = (0, 0);
    for i in from..to {
        let code = tables.code[(octets >> (8 * i)) as u8 as usize];
        bad |= code & NONE;
        packed |= ((code & 127) as u64) << (7 * (i - from));
    }
    (bad == 0).then_some(packed)
}

/// The ordered set code of an octet.
#[inline(always)]
fn o_code(octet: u64) -> Option<u64> {
    match octet as u8 {
        0x9c => Some(0x0),
        0x5c => Some(0xf),
        _ => None,
    }
}

/// Kind and payload of a vector with a control character and not all low power idle; `flags` has a bit for each control character.
pub fn encode(tables: &Tables, flags: u64, octets: u64) -> Option<(Kind, u64)> {
    let (first, fifth) = (octets as u8, (octets >> 32) as u8);
    let low_data = (octets >> 8) & 0xff_ffff; // D1 to D3
    let high_data = (octets >> 40) << 40; // D5 to D7, in their place in the payload
    match flags {
        0xff if first == 0xfd => Some((Kind::T, 0x87 | pack_codes(tables, octets, 1, 8)? << 15)),
        0xff => {
            let codes = pack_codes(tables, octets, 0, 8)?;
            let has_error = (0..8).any(|i| (codes >> (7 * i)) & 127 == 0x1e);
            Some((if has_error { Kind::E } else { Kind::C }, 0x1e | codes << 8))
        }
        0x1f if fifth == 0xfb => Some((Kind::S, 0x33 | pack_codes(tables, octets, 0, 4)? << 8 | high_data)),
        0x1f => {
            let o = o_code(octets >> 32)?;
            Some((Kind::C, 0x2d | pack_codes(tables, octets, 0, 4)? << 8 | o << 36 | high_data))
        }
        0x11 if fifth == 0xfb => Some((Kind::S, 0x66 | low_data << 8 | o_code(octets)? << 32 | high_data)),
        0x11 => {
            let (o, p) = (o_code(octets)?, o_code(octets >> 32)?);
            Some((Kind::C, 0x55 | low_data << 8 | o << 32 | p << 36 | high_data))
        }
        0x01 if first == 0xfb => Some((Kind::S, 0x78 | octets & !0xff)),
        0xf1 => {
            let o = o_code(octets)?;
            Some((Kind::C, 0x4b | low_data << 8 | o << 32 | pack_codes(tables, octets, 4, 8)? << 36))
        }
        0xfe => terminate(tables, octets, 1),
        0xfc => terminate(tables, octets, 2),
        0xf8 => terminate(tables, octets, 3),
        0xf0 => terminate(tables, octets, 4),
        0xe0 => terminate(tables, octets, 5),
        0xc0 => terminate(tables, octets, 6),
        0x80 => terminate(tables, octets, 7),
        _ => None,
    }
}

/// Terminate at `k`, from 1 to 7: k data octets, 7 - k unused bits, 7 - k codes at the top.
#[inline(always)]
fn terminate(tables: &Tables, octets: u64, k: u32) -> Option<(Kind, u64)> {
    if (octets >> (8 * k)) as u8 != 0xfd {
        return None;
    }
    let data = (octets & ((1 << (8 * k)) - 1)) << 8;
    let codes = match octets >> (8 * k + 7) >> 1 {
        rest if rest == IDLES >> (8 * k + 7) >> 1 => 0,
        _ => pack_codes(tables, octets, k + 1, 8)?,
    };
    let codes = if k < 7 { codes << (64 - 7 * (7 - k)) } else { 0 };
    Some((Kind::T, TERMINATES[k as usize] | data | codes))
}

pub const fn transmit(state: State, kind: Kind) -> State {
    match (state, kind) {
        (State::Init | State::C | State::T | State::E | State::LI, Kind::C) => State::C,
        (State::Init | State::C | State::T, Kind::S) => State::D,
        (State::D | State::E, Kind::D) => State::D,
        (State::D | State::E, Kind::T) => State::T,
        (State::C | State::T | State::E | State::LI, Kind::LI) => State::LI,
        _ => State::E,
    }
}

/// What sending carries from block to block: the characters, the last payload sent, the diagram, the count.
struct Sender {
    tables: &'static Tables,
    last: u64,
    state: State,
    replaced: u64,
}

impl Sender {
    /// Header and scrambled payload of the next vector.
    #[inline(always)]
    fn block(&mut self, vector: &[u8]) -> (u64, u64) {
        let flags = vector[0] as u64 | (vector[5] as u64) << 4;
        let octets = load32(vector, 1) | load32(vector, 6) << 32;
        let (kind, header, payload) = match (flags, octets) {
            (0, _) => (Kind::D, DATA, octets),
            (0xff, IDLES) => (Kind::C, CONTROL, IDLE_PAYLOAD),
            (0xff, LOW_POWER) if self.tables.low_power => (Kind::LI, CONTROL, LOW_POWER_PAYLOAD),
            _ => match encode(self.tables, flags, octets) {
                Some((kind, payload)) => (kind, CONTROL, payload),
                None => (Kind::E, CONTROL, ERROR_PAYLOAD),
            },
        };
        self.state = transmit(self.state, kind);
        if self.state == State::E {
            self.replaced += 1;
            return (CONTROL, self.scramble(ERROR_PAYLOAD));
        }
        (header, self.scramble(payload))
    }

    /// Bits 39 and 58 before, from the last payload and then from this one. A payload bit from 39 on needs only the 25 lowest bits of
    /// what is sent, and none of those needs another of its own.
    #[inline(always)]
    fn scramble(&mut self, payload: u64) -> u64 {
        let from_last = payload ^ (self.last >> 25) ^ (self.last >> 6);
        self.last = from_last ^ (from_last << 39) ^ (from_last << 58);
        self.last
    }
}

#[inline(never)]
pub fn send(edition: u64, vectors: &[u8], start: u64, line: &mut [u8], summary: &mut [u8]) -> u64 {
    let Some(tables) = tables_of(edition) else {
        return refuse(summary, 3, 13, 0);
    };
    let wanted = vectors.len() / 40 * 33;
    if vectors.len() > 1_000_000 {
        return refuse(summary, 3, 1, 0);
    }
    if vectors.len() % 40 != 0 {
        return refuse(summary, 3, 2, 0);
    }
    if start >= 1 << 58 {
        return refuse(summary, 3, 3, 0);
    }
    if line.len() < wanted || summary.len() < 24 {
        return refuse(summary, 3, 4, 0);
    }
    if let Some(word) = vectors.chunks_exact(5).position(|word| word[0] > 15) {
        return refuse(summary, 3, 5, 5 * word);
    }
    let mut sender = Sender { tables, last: start.reverse_bits(), state: State::Init, replaced: 0 };
    for (group, out) in vectors.chunks_exact(40).zip(line[..wanted].chunks_exact_mut(33)) {
        send_group(&mut sender, group, out);
    }
    let state = sender.last.reverse_bits() & ((1 << 58) - 1);
    put_words(summary, &[state, sender.state as u64, sender.replaced]);
    0
}

/// Four vectors into 33 bytes: block i begins at bit 2 i of word i.
#[inline(always)]
fn send_group(sender: &mut Sender, group: &[u8], out: &mut [u8]) {
    let (h0, p0) = sender.block(&group[0..10]);
    let (h1, p1) = sender.block(&group[10..20]);
    let (h2, p2) = sender.block(&group[20..30]);
    let (h3, p3) = sender.block(&group[30..40]);
    out[0..8].copy_from_slice(&(h0 | p0 << 2).to_le_bytes());
    out[8..16].copy_from_slice(&(p0 >> 62 | h1 << 2 | p1 << 4).to_le_bytes());
    out[16..24].copy_from_slice(&(p1 >> 60 | h2 << 4 | p2 << 6).to_le_bytes());
    out[24..32].copy_from_slice(&(p2 >> 58 | h3 << 6 | p3 << 8).to_le_bytes());
    out[32] = (p3 >> 56) as u8;
}

// ---- receiving

/// A tested block: kind, control flags and octets.
#[derive(Clone, Copy)]
struct Tested {
    kind: Kind,
    flags: u8,
    octets: u64,
}

/// Why a block is bad, in the summary's order.
#[derive(Clone, Copy)]
#[repr(u8)]
pub enum Fault {
    Header,
    Type,
    ControlCode,
    SetCode,
}

/// `n` control characters from packed codes.
#[inline(always)]
fn unpack_codes(tables: &Tables, codes: u64, n: u32) -> Result<u64, Fault> {
    if codes == 0 {
        return Ok(if n == 0 { 0 } else { IDLES >> (64 - 8 * n) });
    }
    let (mut octets, mut bad) = (0, false);
    for i in 0..n {
        let octet = tables.octet[(codes >> (7 * i)) as usize & 127];
        bad |= octet == 0;
        octets |= (octet as u64) << (8 * i);
    }
    if bad {
        return Err(Fault::ControlCode);
    }
    Ok(octets)
}

#[inline(always)]
fn o_octet(code: u64) -> Result<u64, Fault> {
    match code & 15 {
        0x0 => Ok(0x9c),
        0xf => Ok(0x5c),
        _ => Err(Fault::SetCode),
    }
}

/// Kind, control flags and octets of a control block that is not all low power idle. Control codes are looked at before ordered set
/// codes.
pub fn decode(tables: &Tables, payload: u64) -> Result<(Kind, u8, u64), Fault> {
    let low_data = (payload >> 8) & 0xff_ffff; // D1 to D3
    let high_data = (payload >> 40) << 40; // D5 to D7, in their place in the vector
    let low_codes = (payload >> 8) & 0xfff_ffff; // C0 to C3
    let (o, p) = (payload >> 32, payload >> 36);
    match payload as u8 {
        0x1e => {
            let octets = unpack_codes(tables, payload >> 8, 8)?;
            let has_error = (0..8).any(|i| (octets >> (8 * i)) as u8 == 0xfe);
            if has_error {
                return Err(Fault::ControlCode);
            }
            Ok((Kind::C, 0xff, octets))
        }
        0x2d => Ok((Kind::C, 0x1f, unpack_codes(tables, low_codes, 4)? | o_octet(p)? << 32 | high_data)),
        0x33 => Ok((Kind::S, 0x1f, unpack_codes(tables, low_codes, 4)? | 0xfb << 32 | high_data)),
        0x66 => Ok((Kind::S, 0x11, o_octet(o)? | low_data << 8 | 0xfb << 32 | high_data)),
        0x55 => Ok((Kind::C, 0x11, o_octet(o)? | low_data << 8 | o_octet(p)? << 32 | high_data)),
        0x78 => Ok((Kind::S, 0x01, (payload & !0xff) | 0xfb)),
        0x4b => Ok((Kind::C, 0xf1, unpack_codes(tables, p, 4)? << 32 | o_octet(o)? | low_data << 8)),
        0x87 => ended(tables, payload, 0),
        0x99 => ended(tables, payload, 1),
        0xaa => ended(tables, payload, 2),
        0xb4 => ended(tables, payload, 3),
        0xcc => ended(tables, payload, 4),
        0xd2 => ended(tables, payload, 5),
        0xe1 => ended(tables, payload, 6),
        0xff => ended(tables, payload, 7),
        _ => Err(Fault::Type),
    }
}

/// A block with Terminate at `k`.
#[inline(always)]
fn ended(tables: &Tables, payload: u64, k: u32) -> Result<(Kind, u8, u64), Fault> {
    let data = (payload >> 8) & ((1 << (8 * k)) - 1);
    let codes = if k < 7 { unpack_codes(tables, payload >> (15 + 7 * k), 7 - k)? << (8 * k) << 8 } else { 0 };
    Ok((Kind::T, 0xff << k, data | 0xfd << (8 * k) | codes))
}

/// What header and type alone say of a block: a fault, that it is good, or that its codes decide.
static AT_ONCE: [u8; 1024] = at_once();
const GOOD: u8 = 4;
const CODES: u8 = 5;

const fn at_once() -> [u8; 1024] {
    let mut table = [Fault::Header as u8; 1024];
    let mut byte = 0;
    while byte < 256 {
        table[DATA as usize * 256 + byte] = GOOD;
        table[CONTROL as usize * 256 + byte] = match byte {
            0x1e | 0x2d | 0x33 | 0x66 | 0x55 | 0x78 | 0x4b => CODES,
            0x87 | 0x99 | 0xaa | 0xb4 | 0xcc | 0xd2 | 0xe1 | 0xff => CODES,
            _ => Fault::Type as u8,
        };
        byte += 1;
    }
    table
}

/// The receive diagram's next state, by state and kind, with every Terminate accepted. The last column is of no kind: with eight of them a
/// row is found by a shift.
static NEXT: [[State; 8]; 6] = [
    [State::E, State::C, State::D, State::E, State::E, State::E, State::Init, State::Init],
    [State::E, State::C, State::D, State::E, State::E, State::LI, State::Init, State::Init],
    [State::D, State::E, State::E, State::T, State::E, State::E, State::Init, State::Init],
    [State::E, State::C, State::D, State::E, State::E, State::LI, State::Init, State::Init],
    [State::D, State::C, State::E, State::T, State::E, State::LI, State::Init, State::Init],
    [State::E, State::C, State::E, State::E, State::E, State::LI, State::Init, State::Init],
];

#[derive(Default)]
struct Receiver {
    tested: u32,
    invalid: u32,
    locked: bool,
    window: u32,
    window_invalid: u32,
    high: bool,
    last: u64,
    /// Blocks by `Fault`; the fifth place takes good ones that are not answered, and is not told.
    faults: [u64; 5],
}

impl Receiver {
    /// Updates lock; true where it slips.
    #[inline(always)]
    fn lock(&mut self, invalid: bool) -> bool {
        self.tested += 1;
        self.invalid += invalid as u32;
        if invalid && (!self.locked || self.invalid == 16) {
            (self.tested, self.invalid, self.locked) = (0, 0, false);
            return true;
        }
        if self.tested == 64 {
            self.locked |= self.invalid == 0;
            (self.tested, self.invalid) = (0, 0);
        }
        false
    }

    /// Updates the error rate.
    #[inline(always)]
    fn rate(&mut self, was_locked: bool, invalid: bool) {
        if !self.locked || !was_locked {
            (self.window, self.window_invalid, self.high) = (0, 0, false);
            return;
        }
        self.window += 1;
        self.window_invalid += invalid as u32;
        self.high |= self.window_invalid >= 16;
        if self.window == 19_531 {
            self.high = self.window_invalid >= 16;
            (self.window, self.window_invalid) = (0, 0);
        }
    }

    /// Tests a block; true where it slips.
    #[inline(always)]
    fn test(&mut self, tables: &Tables, header: u64, payload: u64) -> (Tested, bool) {
        let invalid = (header ^ (header >> 1)) & 1 == 0;
        let was_locked = self.locked;
        let slips = self.lock(invalid);
        self.rate(was_locked, invalid);
        let last = std::mem::replace(&mut self.last, payload);
        let plain = payload ^ (payload << 39 | last >> 25) ^ (payload << 58 | last >> 6);
        let (kind, flags, octets) = match (header, plain) {
            _ if !self.locked || self.high => self.down(tables, header, plain),
            _ if invalid => self.bad(Fault::Header),
            (DATA, _) => (Kind::D, 0, plain),
            (_, IDLE_PAYLOAD) => (Kind::C, 0xff, IDLES),
            (_, LOW_POWER_PAYLOAD) if tables.low_power => (Kind::LI, 0xff, LOW_POWER),
            _ => decode(tables, plain).unwrap_or_else(|fault| self.bad(fault)),
        };
        (Tested { kind, flags, octets }, slips)
    }

    /// Counts a bad block.
    #[inline(always)]
    fn bad(&mut self, fault: Fault) -> (Kind, u8, u64) {
        self.faults[fault as usize] += 1;
        (Kind::E, 0, 0)
    }

    /// Counts a block that is not answered. Its header and type may be noise, and a branch on them a guess: a table has no branch.
    #[inline(always)]
    fn down(&mut self, tables: &Tables, header: u64, plain: u64) -> (Kind, u8, u64) {
        let at_once = AT_ONCE[(header << 8 | plain & 255) as usize];
        if at_once != CODES {
            self.faults[at_once as usize] += 1;
        } else if let Err(fault) = decode(tables, plain) {
            self.faults[fault as usize] += 1;
        }
        (Kind::Down, 0, 0)
    }
}

#[inline(always)]
fn put_vector(out: &mut [u8], n: usize, flags: u8, octets: u64) {
    let out: &mut [u8; 10] = (&mut out[10 * n..10 * n + 10]).try_into().unwrap();
    out[0] = flags & 15;
    out[1..5].copy_from_slice(&(octets as u32).to_le_bytes());
    out[5] = flags >> 4;
    out[6..10].copy_from_slice(&((octets >> 32) as u32).to_le_bytes());
}

/// What answering carries from block to block: the diagram and the counts.
struct Answers {
    state: State,
    begun: u64,
    replaced: u64,
}

impl Answers {
    /// Only Terminate waits for the next block: it is answered at once, and taken back where one comes that is neither S nor C nor LI.
    #[inline(always)]
    fn judge_terminate(&mut self, next: Kind, out: &mut [u8], tested: usize) {
        if self.state == State::T && !matches!(next, Kind::S | Kind::C | Kind::LI) {
            self.state = State::E;
            self.replaced += 1;
            put_vector(out, tested - 1, 0xff, ERRORS);
        }
    }

    #[inline(always)]
    fn answer(&mut self, now: &Tested, out: &mut [u8], tested: usize) {
        self.judge_terminate(now.kind, out, tested);
        self.state = NEXT[self.state as usize][now.kind as usize];
        let (flags, octets) = match self.state {
            State::Init => (0x11, LOCAL_FAULT),
            State::E => (0xff, ERRORS),
            _ => (now.flags, now.octets),
        };
        put_vector(out, tested, flags, octets);
        self.begun += (now.kind == Kind::S && self.state == State::D) as u64;
        self.replaced += (self.state == State::E) as u64;
    }
}

/// Adds what a call counted, at most 100,000 each.
pub fn add_counts(counters: &mut [u8; 32], added: [u64; 8]) {
    for (place, added) in counters.chunks_exact_mut(4).zip(added) {
        let old = load32(place, 0) as u32;
        place.copy_from_slice(&old.saturating_add(added as u32).to_le_bytes());
    }
}

/// The header at line bit `at`.
#[inline(always)]
fn header_at(line: &[u8], at: usize) -> u64 {
    let two = u16::from_le_bytes(line[at / 8..at / 8 + 2].try_into().unwrap());
    (two >> (at % 8)) as u64 & 3
}

/// 64 bits from line bit `at`; where it stands inside a byte, a ninth byte has the last of them.
#[inline(always)]
fn payload_at(line: &[u8], at: usize) -> u64 {
    let (byte, shift) = (at / 8, at % 8);
    let low = load64(line, byte);
    if shift == 0 {
        return low;
    }
    low >> shift | (line[byte + 8] as u64) << (64 - shift)
}

#[inline(never)]
pub fn receive(edition: u64, line: &[u8], vectors: &mut [u8], summary: &mut [u8], counters: &mut [u8]) -> u64 {
    let Some(tables) = tables_of(edition) else {
        return refuse(summary, 12, 13, 0);
    };
    if line.len() > 825_000 {
        return refuse(summary, 12, 1, 0);
    }
    let bits = 8 * line.len();
    let wanted = bits / 66 * 10;
    let counters = match counters.first_chunk_mut() {
        Some(counters) if vectors.len() >= wanted && summary.len() >= 96 => counters,
        _ => return refuse(summary, 12, 4, 0),
    };
    let mut receiver = Receiver::default();
    let mut answers = Answers { state: State::Init, begun: 0, replaced: 0 };
    let (mut tested, mut slips, mut at) = (0, 0, 0);
    while at + 66 <= bits {
        let (now, slipped) = receiver.test(tables, header_at(line, at), payload_at(line, at + 2));
        answers.answer(&now, vectors, tested);
        tested += 1;
        slips += slipped as u64;
        at += 66 + slipped as usize;
    }
    let [header, type_byte, control_code, set_code, ..] = receiver.faults;
    let (locked, high) = (receiver.locked as u64, receiver.high as u64);
    let (tested, alone) = (tested as u64, (answers.state == State::T) as u64);
    let Answers { begun, replaced, .. } = answers;
    let words =
        [tested, slips, locked, high, tested, header, type_byte, control_code, set_code, alone, begun, replaced];
    put_words(summary, &words);
    add_counts(counters, [tested, slips, header, type_byte, control_code, set_code, begun, replaced]);
    0
}
