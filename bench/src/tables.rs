//! The tables of calls of one length: what they time, and how a row is told.
use crate::report::Report;
use crate::timing::{self, line_of, Timed};
use crate::traffic;
use compare::library;
use compare::lists;
use compare::reference::edition::{Edition, EDITIONS};

/// Bytes of a burst: what a probe sends at a time, and more.
const BURSTS: [(&str, usize); 2] = [("bursts of 256", 256), ("bursts of 2,048", 2_048)];

pub struct Table {
    title: &'static str,
    head: &'static [&'static str],
    rows: Vec<Row>,
}

/// The first cells of a row, what is timed, and the other cells by its times.
struct Row {
    names: Vec<String>,
    timed: Timed,
    told: Box<Told>,
}

/// Cells by times.
type Told = dyn Fn(&[f64]) -> Vec<String>;

impl Row {
    fn new(names: &[&str], timed: Timed, told: impl Fn(&[f64]) -> Vec<String> + 'static) -> Row {
        Row { names: names.iter().map(|name| name.to_string()).collect(), timed, told: Box::new(told) }
    }
}

impl Table {
    pub fn timed(&mut self) -> impl Iterator<Item = &mut Timed> {
        self.rows.iter_mut().map(|row| &mut row.timed)
    }

    pub fn print(&self, report: &mut Report) {
        report.head(self.title, self.head);
        for row in &self.rows {
            report.row(&[row.names.clone(), (row.told)(&row.timed.best)].concat());
        }
    }
}

/// A direction in words. The old edition is not named.
fn direction(word: &str, edition: Edition) -> String {
    match edition {
        Edition::Old => word.to_string(),
        Edition::New => format!("{word}, new edition"),
    }
}

/// The three ways, the library also in Gbit/s, and its ratio to both others.
pub fn ways() -> Table {
    let mut rows = vec![];
    let told = |ns: &[f64]| {
        let (a_block, ratio) = (|way: usize| format!("{:.2}", ns[way]), |way: usize| format!("{:.2}", ns[0] / ns[way]));
        vec![a_block(0), format!("{:.1}", 66.0 / ns[0]), a_block(1), a_block(2), ratio(1), ratio(2)]
    };
    for edition in EDITIONS {
        let all = traffic::all(edition);
        let send = |t: &traffic::Traffic| timing::sending(edition, t.vectors.clone());
        let receive = |t: &traffic::Traffic| timing::receiving(edition, line_of(edition, t));
        rows.extend(all.iter().map(|t| Row::new(&[&direction("send", edition), t.name], send(t), told)));
        rows.extend(all.iter().map(|t| Row::new(&[&direction("receive", edition), t.name], receive(t), told)));
    }
    let head = &["", "line", "library", "Gbit/s", "plain Rust", "fastest Rust", "library / plain", "library / fastest"];
    Table { title: "Library and both Rust versions, ns a block", head, rows }
}

/// In the new edition only what the old one does not have.
pub fn bursts() -> Table {
    let mut rows = vec![];
    let told = |ns: &[f64]| [ns[0], ns[1], ns[0] / ns[1]].map(|number| format!("{number:.2}")).to_vec();
    for edition in EDITIONS {
        let lines = traffic::new_in(edition);
        for (name, bytes) in BURSTS {
            let timed = |t| timing::bursts(edition, line_of(edition, t), bytes);
            rows.extend(lines.iter().map(|t| Row::new(&[&direction(name, edition), t.name], timed(t), told)));
        }
    }
    let head = &["", "line", "in bursts", "one call", "ratio"];
    Table { title: "The library in bursts and in one call, ns a block", head, rows }
}

/// What the library alone does.
fn told_alone(ns: f64) -> Vec<String> {
    vec![format!("{ns:.0}"), "-".to_string(), "-".to_string()]
}

/// What short calls cost, on idles. The bursts are those of a long line.
pub fn calls() -> Table {
    let edition = Edition::Old;
    let vectors = lists::idle().repeat(1_000);
    let line = library::sent(edition, &vectors, 0).0;
    let of = |blocks: f64| move |ns: &[f64]| ns.iter().map(|ns| format!("{:.0}", blocks * ns)).collect();
    let send = |n: usize| timing::sending(edition, vectors[..10 * n].to_vec());
    let receive = |bytes: usize| timing::receiving(edition, line[..bytes].to_vec());
    let burst = |name: &str, bytes: usize| {
        let blocks_a_call = bytes as f64 * timing::tested(edition, &line) as f64 / line.len() as f64;
        Row::new(&[name], timing::bursts(edition, line.clone(), bytes), move |ns| told_alone(ns[0] * blocks_a_call))
    };
    let rows = vec![
        Row::new(&["send of no vector"], send(0), of(1.0)),
        Row::new(&["send of 4 vectors"], send(4), of(4.0)),
        Row::new(&["receive of 8 bytes, no block"], receive(8), of(1.0)),
        Row::new(&["receive of 33 bytes, 4 blocks"], receive(33), of(4.0)),
        Row::new(&["burst of no byte"], timing::empty_burst(edition, &line), |ns| told_alone(ns[0])),
        burst("burst of 1 byte", 1),
        burst("burst of 256 bytes, 31 blocks", 256),
    ];
    Table { title: "A short call, ns", head: &["", "library", "plain Rust", "fastest Rust"], rows }
}

/// An index, of the vectors that are timed above with an error vector in each hundred.
pub fn index() -> Table {
    let told = |us: &[f64]| us.iter().map(|number| format!("{number:.1}")).collect();
    let rows = traffic::all(Edition::Old).into_iter().map(traffic::with_errors);
    let rows = rows.map(|t| Row::new(&[t.name], timing::index(t.vectors), told)).collect();
    let head = &["100,000 vectors", "the index built", "a count with it", "a search with it", "full count, plain Rust"];
    Table { title: "An index, us a call", head, rows }
}

/// Frames, of the vectors that are timed above, and of as many frames as fit.
pub fn frames() -> Table {
    let told = |ns: &[f64]| [ns[0], ns[1], ns[0] / ns[1]].map(|number| format!("{number:.2}")).to_vec();
    let mut lists = traffic::all(Edition::Old);
    lists.push(traffic::most_frames());
    let rows = lists.into_iter().map(|t| Row::new(&[t.name], timing::frames(t.vectors), told)).collect();
    Table { title: "Frames, ns a word", head: &["vectors", "library", "plain Rust", "library / plain"], rows }
}
