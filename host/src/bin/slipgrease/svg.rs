//! Pictures, in SVG: what all of them are made of. Lengths are in the picture's own units, which a viewer takes for pixels.

mod colour;
mod record;
mod report;

pub use record::record;
pub use report::report;

use colour::{INK, PALE_INK};
use std::fmt::Write;

const MARGIN: usize = 24;
const LINE: usize = 18;
const TITLE: usize = 36;
const LETTER: usize = 7;

/// What stands over a picture: its title, and lines under it.
struct Head {
    title: String,
    lines: Vec<String>,
}

impl Head {
    /// How far down it goes.
    fn bottom(&self) -> usize {
        TITLE + LINE * self.lines.len()
    }

    /// The beginning of a picture of some size, with what it defines for itself.
    fn drawn(&self, width: usize, height: usize, defined: &str) -> String {
        let mut svg = format!(
            "<svg xmlns=\"http://www.w3.org/2000/svg\" viewBox=\"0 0 {width} {height}\" width=\"{width}\" height=\"{height}\">\n\
             <title>{}</title>\n\
             <style>\n\
             text {{ font-family: 'DejaVu Sans', Helvetica, Arial, sans-serif; font-size: 11px; fill: {INK}; }}\n\
             .title {{ font-size: 20px; font-weight: bold; }}\n\
             .line {{ font-size: 13px; }}\n\
             .caption {{ font-size: 13px; font-weight: bold; text-anchor: middle; }}\n\
             .round {{ font-weight: bold; }}\n\
             .stage {{ text-anchor: end; }}\n\
             .place {{ font-size: 9px; fill: {PALE_INK}; text-anchor: middle; }}\n\
             .number {{ font-size: 9px; fill: {PALE_INK}; text-anchor: end; }}\n\
             .byte {{ font-family: 'DejaVu Sans Mono', Menlo, Consolas, monospace; font-size: 10px; text-anchor: middle; }}\n\
             .pale {{ fill: {PALE_INK}; }}\n\
             </style>\n\
             {defined}\
             <rect width=\"{width}\" height=\"{height}\" fill=\"#ffffff\"/>\n",
            escaped(&self.told())
        );
        text(&mut svg, "title", MARGIN, TITLE, &self.title);
        lines(&mut svg, TITLE + 4 + LINE, &self.lines);
        svg
    }

    /// The title and the lines, a sentence for each.
    fn told(&self) -> String {
        let lines = std::iter::once(&self.title).chain(&self.lines);
        lines.map(|line| sentence(line)).collect::<Vec<_>>().join(" ")
    }
}

/// Lines one under the other, from a height on.
fn lines(svg: &mut String, y: usize, lines: &[impl AsRef<str>]) {
    for (index, line) in lines.iter().enumerate() {
        text(svg, "line", MARGIN, y + LINE * index, line.as_ref());
    }
}

/// How wide the longest of some lines is.
fn widest(lines: &[impl AsRef<str>]) -> usize {
    LETTER * lines.iter().map(|line| line.as_ref().len()).max().unwrap_or(0)
}

fn text(svg: &mut String, class: &str, x: usize, y: usize, said: &str) {
    let _ = writeln!(svg, "<text class=\"{class}\" x=\"{x}\" y=\"{y}\">{}</text>", escaped(said));
}

/// Where a cell is, and how large.
struct Cell {
    x: usize,
    y: usize,
    width: usize,
    height: usize,
}

impl Cell {
    /// On white nothing is drawn under the writing.
    fn draw(&self, svg: &mut String, fill: &str, class: &str, written: &str) {
        let Cell { x, y, width, height } = self;
        if fill != "#ffffff" {
            let _ = writeln!(svg, "<path d=\"M{x} {y}h{width}v{height}h-{width}z\" fill=\"{fill}\"/>");
        }
        if !written.is_empty() {
            text(svg, class, x + width / 2, baseline(*y, *height), written);
        }
    }
}

/// Where a small writing stands that is in the middle of a height.
fn baseline(y: usize, height: usize) -> usize {
    y + (height + 7) / 2
}

/// With a capital letter and a full stop.
fn sentence(line: &str) -> String {
    let mut sentence = line.to_string();
    if let Some(first) = sentence.get_mut(..1) {
        first.make_ascii_uppercase();
    }
    if !line.ends_with('.') {
        sentence.push('.');
    }
    sentence
}

/// A file may have any name.
fn escaped(said: &str) -> String {
    said.replace('&', "&amp;").replace('<', "&lt;")
}
