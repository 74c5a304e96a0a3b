//! A record as text: a row for each of its points.

use crate::hex::digits;
use crate::record::{sentences, Kind, Pair, Run};
use slipgrease::Point;

/// One run, or two sides and what their comparison comes to.
pub fn table(run: &Run, pair: Option<&Pair>) -> String {
    match (pair, run.masked) {
        (Some(pair), _) => side_by_side(pair),
        (None, Some(_)) => covered(run),
        (None, None) => plain(run),
    }
}

fn state(states: &[u8], point: Point) -> &[u8] {
    &states[16 * point.number()..][..16]
}

fn rows(points: impl Iterator<Item = Point>, heading: String, row: impl Fn(Point) -> String) -> String {
    let points: Vec<Point> = points.collect();
    let width = points.iter().map(|point| point.to_string().len()).max().unwrap_or(0);
    let line = |point: Point| format!("{:>2}  {point:<width$}  {}\n", point.number(), row(point));
    format!("{:>2}  {:<width$}  {heading}\n{}", "n", "after", points.into_iter().map(line).collect::<String>())
}

fn plain(run: &Run) -> String {
    rows(run.points(), "state".to_string(), |point| digits(state(&run.recorded.states, point)))
}

/// The plain state, its mask, the covered state, and the mask's name.
fn covered(run: &Run) -> String {
    let (recorded, masks) = (&run.recorded, run.recorded.masks());
    let heading = format!("{:<32}  {:<32}  {:<32}  mask's name", "plain state", "mask", "covered state");
    let table = rows(run.points(), heading, |point| {
        let [plain, mask, covered] = [&recorded.plain, &masks, &recorded.states].map(|states| digits(state(states, point)));
        format!("{plain}  {mask}  {covered}  {}", recorded.covers[point.number()].name())
    });
    format!("{}\n{table}", run.named())
}

/// Both states, and the xor of what is under their masks, with dots for the bytes that are equal and dashes for those that differ by
/// their masks alone; then how many bytes differ, and the masks.
fn side_by_side(pair: &Pair) -> String {
    let [first, second] = pair.called;
    let counted = if pair.masked { "under  masks  covered by" } else { "bytes" };
    let what = if pair.masked { "what differs under the masks" } else { "what differs (xor)" };
    let under = pair.under();
    let table = rows(pair.points(), format!("{first:<32}  {second:<32}  {what:<32}  {counted}"), |point| {
        let [a, b] = [0, 1].map(|side| digits(state(&pair.sides[side].states, point)));
        let marked: String = (16 * point.number()..16 * point.number() + 16)
            .map(|byte| match pair.kind(byte) {
                Kind::Same => "..".to_string(),
                Kind::ByMasks => "--".to_string(),
                Kind::Under => digits(&[under[byte]]),
            })
            .collect();
        let counts = pair.at(point);
        match pair.masked {
            false => format!("{a}  {b}  {marked}  {:>5}", counts.under),
            true => {
                format!("{a}  {b}  {marked}  {:>5}  {:>5}  {}", counts.under + counts.hidden, counts.by_masks, pair.covers(point))
            }
        }
    });
    let width = first.len().max(second.len()) + 1;
    let named = [0, 1].map(|side| format!("{:<width$} {}\n", format!("{}:", pair.called[side]), pair.named[side]));
    let another = pair.another.iter().map(|another| format!("{another}\n")).collect::<String>();
    format!("{}{another}{table}\n{}\n", named.concat(), sentences(pair).join("\n"))
}
