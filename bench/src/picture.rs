//! The growth of the cost as a picture: one panel for each direction, blocks on a logarithmic axis, ns a block from 0 on.
use crate::growth::{grouped, Curve, BLOCKS};
use std::fmt::Write;

const WIDTH: f64 = 880.0;
const HEIGHT: f64 = 340.0;
const TOP: f64 = 40.0;
const BOTTOM: f64 = 290.0;
/// Where the panels begin, and how wide the curves are there; their labels stand to the right.
const LEFT: [f64; 2] = [50.0, 490.0];
const PANEL: f64 = 260.0;
/// Labels of curves are at least so far apart.
const APART: f64 = 15.0;
/// Nanoseconds of a block at 10 Gbit/s of data, 10.3125 of line bits.
const LINE_RATE: f64 = 6.4;

const STYLE: &str = "text{font:12px sans-serif;fill:#6e7781}.title{font-weight:bold}.axis{stroke:#8c959f}.grid{stroke:#8c959f;opacity:.3}\
.rate{stroke:#8c959f;stroke-dasharray:5 4}.library{stroke:#2f81f7;fill:#2f81f7}.plain{stroke:#c9752a;fill:#c9752a}\
.fastest{stroke:#2da44e;fill:#2da44e}polyline{fill:none!important;stroke-width:2}text{stroke:none!important}\
@media(prefers-color-scheme:dark){text{fill:#adbac7}}text.library{fill:#2f81f7}text.plain{fill:#c9752a}text.fastest{fill:#2da44e}";

/// The y axis: how many ns it has.
struct Axis {
    most: f64,
}

impl Axis {
    /// Up to a multiple of five that all curves and the line rate are below.
    fn of(curves: &[Curve]) -> Axis {
        let most = curves.iter().flat_map(|curve| curve.ns).fold(LINE_RATE, f64::max);
        Axis { most: 5.0 * (most / 5.0).ceil() }
    }

    fn y(&self, ns: f64) -> f64 {
        BOTTOM - (BOTTOM - TOP) * ns / self.most
    }

    /// About six marks.
    fn marks(&self) -> impl Iterator<Item = f64> {
        let step = 5.0 * (self.most / 30.0).ceil();
        let count = (self.most / step) as usize;
        (0..=count).map(move |i| step * i as f64)
    }
}

/// From 10 blocks on the left to 100,000 on the right.
fn x(left: f64, blocks: f64) -> f64 {
    left + PANEL * (blocks.log10() - 1.0) / 4.0
}

fn line(svg: &mut String, class: &str, [x1, y1, x2, y2]: [f64; 4]) {
    _ = writeln!(svg, r#"<line class="{class}" x1="{x1:.1}" y1="{y1:.1}" x2="{x2:.1}" y2="{y2:.1}"/>"#);
}

fn text(svg: &mut String, class: &str, anchor: &str, [x, y]: [f64; 2], words: &str) {
    _ = writeln!(svg, r#"<text class="{class}" text-anchor="{anchor}" x="{x:.1}" y="{y:.1}">{words}</text>"#);
}

fn axes(svg: &mut String, axis: &Axis, left: f64) {
    for ns in axis.marks() {
        let y = axis.y(ns);
        line(svg, if ns == 0.0 { "axis" } else { "grid" }, [left, y, left + PANEL, y]);
        text(svg, "", "end", [left - 6.0, y + 4.0], &format!("{ns}"));
    }
    for blocks in BLOCKS {
        let x = x(left, blocks as f64);
        line(svg, "axis", [x, BOTTOM, x, BOTTOM + 5.0]);
        text(svg, "", "middle", [x, BOTTOM + 19.0], &grouped(blocks));
    }
    text(svg, "", "middle", [left + PANEL / 2.0, BOTTOM + 40.0], "blocks in a call");
    let rate = axis.y(LINE_RATE);
    line(svg, "rate", [left, rate, left + PANEL, rate]);
    text(svg, "", "end", [left + PANEL, rate + 14.0], "10 Gbit/s line: 6.4 ns");
}

/// The first word of a way's name.
fn class(curve: &Curve) -> &str {
    curve.way.split(' ').next().unwrap_or(curve.way)
}

fn draw(svg: &mut String, axis: &Axis, left: f64, curve: &Curve) {
    let places = curve.blocks.into_iter().zip(curve.ns).map(|(blocks, ns)| [x(left, blocks as f64), axis.y(ns)]);
    let points: Vec<String> = places.clone().map(|[x, y]| format!("{x:.1},{y:.1}")).collect();
    let class = class(curve);
    _ = writeln!(svg, r#"<polyline class="{class}" points="{}"/>"#, points.join(" "));
    for [x, y] in places {
        _ = writeln!(svg, r#"<circle class="{class}" cx="{x:.1}" cy="{y:.1}" r="2.5"/>"#);
    }
}

/// The curves' names and last values, the lowest curve first, each label far enough above the one before.
fn labels(svg: &mut String, axis: &Axis, left: f64, curves: &[&Curve]) {
    let last = |curve: &Curve| curve.ns[BLOCKS.len() - 1];
    let mut curves = curves.to_vec();
    curves.sort_by(|a, b| last(a).total_cmp(&last(b)));
    let mut highest = f64::MAX;
    for curve in curves {
        let y = axis.y(last(curve)).min(highest - APART);
        let words = format!("{} {:.1}", curve.way, last(curve));
        text(svg, class(curve), "start", [left + PANEL + 8.0, y + 4.0], &words);
        highest = y;
    }
}

pub fn of(curves: &[Curve]) -> String {
    let axis = Axis::of(curves);
    let mut svg = format!(
        r#"<svg xmlns="http://www.w3.org/2000/svg" viewBox="0 0 {WIDTH} {HEIGHT}" width="{WIDTH}" height="{HEIGHT}" role="img">
<title>Nanoseconds a block by the number of blocks in a call</title>
<style>{STYLE}</style>
"#
    );
    for (direction, left) in ["send", "receive"].into_iter().zip(LEFT) {
        let curves: Vec<&Curve> = curves.iter().filter(|curve| curve.direction == direction).collect();
        text(&mut svg, "title", "start", [left, TOP - 20.0], &format!("{direction}, ns a block"));
        axes(&mut svg, &axis, left);
        curves.iter().for_each(|curve| draw(&mut svg, &axis, left, curve));
        labels(&mut svg, &axis, left, &curves);
    }
    svg + "</svg>\n"
}
