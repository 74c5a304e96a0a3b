//! A record as a picture: a row for each of its points, a cell for each byte, and a colour for each value.

use super::colour::{colour, HATCH};
use super::{baseline, lines, text, widest, Cell, Head, LETTER, LINE, MARGIN};
use crate::hex::digits;
use crate::record::{sentences, Kind, Pair, Run};
use slipgrease::Point;
use std::fmt::Write;

const CELL_WIDTH: usize = 21;
const CELL_HEIGHT: usize = 15;
const PANEL_WIDTH: usize = 16 * CELL_WIDTH;
const PANEL_GAP: usize = 28;
const ROUND_GAP: usize = 6;
const NUMBERS: usize = 26;
const LEFT: usize = MARGIN + 152 + NUMBERS;

/// Sixteen columns under a caption. Where kinds are told, a byte is in colour only where it differs under the masks.
struct Panel {
    caption: String,
    states: Vec<u8>,
    kinds: Option<Vec<Kind>>,
    /// Whether bytes that do not differ under the masks are written too.
    whole: bool,
}

impl Panel {
    fn of(caption: impl Into<String>, states: &[u8]) -> Panel {
        Panel { caption: caption.into(), states: states.to_vec(), kinds: None, whole: true }
    }
}

/// All that a picture shows.
struct Drawing {
    head: Head,
    points: Vec<Point>,
    panels: Vec<Panel>,
    /// The masks' names at the points, where there are masks.
    names: Vec<String>,
    foot: Vec<&'static str>,
}

/// One plain run, one masked run with its masks, or two sides and what differs. `private` is said of the file that it goes to.
pub fn record(run: &Run, pair: Option<&Pair>, private: bool) -> String {
    let points: Vec<Point> = run.points().collect();
    let mut foot = vec!["The colour is the byte's first digit, the shade its second; 00 is white."];
    foot.extend(pair.map(marks));
    foot.push(GIVES_AWAY);
    foot.extend(private.then_some(OWNER_ALONE));
    match pair {
        Some(pair) => compared(pair, points, foot).drawn(),
        None => alone(run, points, foot).drawn(),
    }
}

fn alone(run: &Run, points: Vec<Point>, foot: Vec<&'static str>) -> Drawing {
    let (recorded, last) = (&run.recorded, points.len() - 1);
    let mut lines = vec![run.named(), format!("{} {}", points[last], digits(&recorded.states[16 * last..]))];
    let (panels, names) = match run.masked {
        None => (vec![Panel::of("state", &recorded.states)], Vec::new()),
        Some(_) => {
            lines.push("plain xor mask = covered, byte by byte".to_string());
            let panels = [("plain", &recorded.plain), ("mask", &recorded.masks()), ("covered", &recorded.states)];
            let names = recorded.covers.iter().map(|cover| cover.name()).collect();
            (panels.iter().map(|(caption, states)| Panel::of(*caption, states)).collect(), names)
        }
    };
    Drawing { head: Head { title: format!("A run of {}", run.cipher()), lines }, points, panels, names, foot }
}

fn compared(pair: &Pair, points: Vec<Point>, foot: Vec<&'static str>) -> Drawing {
    let [first, second] = &pair.sides;
    let xored = if pair.masked { "what differs under the masks (xor)" } else { "what differs (xor)" };
    let states = [(&pair.captions[0], &first.states, true), (&pair.captions[1], &second.states, true)];
    let under = (&xored.to_string(), &pair.under(), false);
    let panel = |(caption, states, whole): (&String, &Vec<u8>, bool)| Panel {
        caption: caption.clone(),
        states: states.clone(),
        kinds: Some(pair.kinds()),
        whole,
    };
    let named = [0, 1].map(|side| format!("{}: {}", pair.called[side], pair.named[side]));
    let lines = named.into_iter().chain(pair.another.clone()).chain(sentences(pair)).collect();
    Drawing {
        head: Head { title: pair.title.clone(), lines },
        names: if pair.masked { points.iter().map(|&point| pair.covers(point)).collect() } else { Vec::new() },
        panels: states.into_iter().chain([under]).map(panel).collect(),
        points,
        foot,
    }
}

/// What the cells of a comparison say beside their colours.
fn marks(pair: &Pair) -> &'static str {
    match pair.masked {
        true => "In colour: what differs under the masks. Hatched: what differs by the masks alone. Pale: what is the same.",
        false => "In colour: what differs. Pale: what is the same.",
    }
}

const GIVES_AWAY: &str =
    "This picture gives the key away, covered or not: two states between which a round key is added differ in just that key.";
const OWNER_ALONE: &str = "slipgrease wrote it with mode 600, for its owner alone.";

impl Drawing {
    fn drawn(&self) -> String {
        let rows = rows(&self.points, self.head.bottom() + 52);
        let longest = self.names.iter().map(String::len).max().unwrap_or(0);
        let right = LEFT + self.panels.len() * (PANEL_WIDTH + PANEL_GAP) - PANEL_GAP;
        let told = widest(&self.head.lines).max(widest(&self.foot));
        let width = (right + LETTER * longest).max(MARGIN + told) + MARGIN;
        let last = rows[rows.len() - 1] + CELL_HEIGHT;
        let foot = last + 48;
        let hatch = format!(
            "<pattern id=\"hatch\" width=\"5\" height=\"5\" patternUnits=\"userSpaceOnUse\">\
             <path d=\"M-1 1L1 -1M0 5L5 0M4 6L6 4\" stroke=\"{HATCH}\"/></pattern>\n"
        );
        let mut svg = self.head.drawn(width, foot + LINE * self.foot.len(), &hatch);
        for (index, (point, y)) in self.points.iter().zip(&rows).enumerate() {
            labels(&mut svg, *point, *y, right);
            if let Some(name) = self.names.get(index) {
                text(&mut svg, "name", right + 12, baseline(*y, CELL_HEIGHT), name);
            }
        }
        for (index, panel) in self.panels.iter().enumerate() {
            cells(&mut svg, panel, &rows, LEFT + index * (PANEL_WIDTH + PANEL_GAP));
        }
        samples(&mut svg, last + 14);
        lines(&mut svg, foot, &self.foot);
        svg.push_str("</svg>\n");
        svg
    }
}

/// The upper edge of each point's row; a gap stands before each round.
fn rows(points: &[Point], top: usize) -> Vec<usize> {
    let gaps = points.iter().scan(0, |gaps, point| {
        *gaps += usize::from(point.begins_round());
        Some(*gaps)
    });
    gaps.enumerate().map(|(number, gaps)| top + number * CELL_HEIGHT + gaps * ROUND_GAP).collect()
}

/// The round at its first point, and what has just been done at each, with the state's number. A thin line parts the rounds. A key
/// is numbered where its number is not the round's.
fn labels(svg: &mut String, point: Point, y: usize, right: usize) {
    let base = baseline(y, CELL_HEIGHT);
    if point.begins_round() {
        text(svg, "round", MARGIN, base, &format!("round {}", point.round()));
        let y = y - ROUND_GAP / 2;
        let _ = writeln!(svg, "<path d=\"M{MARGIN} {y}H{right}\" stroke=\"#ddd\"/>");
    }
    let stage = match point.key() {
        Some(key) if key != point.round() => point.to_string(),
        _ => point.name().to_string(),
    };
    text(svg, "stage", LEFT - NUMBERS, base, &stage);
    text(svg, "number", LEFT - 6, base, &point.number().to_string());
}

fn cells(svg: &mut String, panel: &Panel, rows: &[usize], left: usize) {
    text(svg, "caption", left + PANEL_WIDTH / 2, rows[0] - 20, &panel.caption);
    for place in 0..16 {
        text(svg, "place", left + place * CELL_WIDTH + CELL_WIDTH / 2, rows[0] - 4, &place.to_string());
    }
    for (index, byte) in panel.states.iter().enumerate() {
        let kind = panel.kinds.as_ref().map_or(Kind::Under, |kinds| kinds[index]);
        let (fill, class) = match kind {
            Kind::Under => (colour(*byte), "byte"),
            Kind::ByMasks => ("url(#hatch)".to_string(), "byte"),
            Kind::Same => ("#ffffff".to_string(), "byte pale"),
        };
        let written = if panel.whole || kind == Kind::Under { digits(&[*byte]) } else { String::new() };
        cell(svg, left + index % 16 * CELL_WIDTH, rows[index / 16], &fill, class, &written);
    }
}

/// A sample of each first digit.
fn samples(svg: &mut String, y: usize) {
    for digit in 0..16 {
        cell(svg, MARGIN + digit * CELL_WIDTH, y, &colour(16 * digit as u8 + 8), "byte", &format!("{digit:x}_"));
    }
}

fn cell(svg: &mut String, x: usize, y: usize, fill: &str, class: &str, written: &str) {
    Cell { x, y, width: CELL_WIDTH, height: CELL_HEIGHT }.draw(svg, fill, class, written);
}
