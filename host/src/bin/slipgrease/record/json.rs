//! A record, or two sides of a comparison, as JSON.

use crate::hex::digits;
use crate::json::string;
use crate::record::compare::{Counts, Pair};
use crate::record::run::{Masked, Recorded, Run};
use slipgrease::Point;

/// `second` is there where two runs are compared, `dump` where a run is compared with one, and `difference` with either. A run has
/// `offset`, or `offsets` in place of it where it has sixteen that no one offset stands for.
pub fn record(first: &Run, second: Option<&Run>, pair: Option<&Pair>) -> String {
    let mut parts = vec![("direction", string(&first.direction.to_string())), ("run", run(first))];
    if let Some(second) = second {
        let another = first.another(second).into_iter().map(string).collect::<Vec<_>>();
        parts.extend([("second", run(second)), ("another", format!("[{}]", another.join(", ")))]);
    }
    if let Some(pair) = pair {
        if second.is_none() {
            parts.push(("dump", object(vec![("states", states(pair.points(), &pair.sides[1]))])));
        }
        parts.push(("difference", difference(pair)));
    }
    object(parts) + "\n"
}

fn run(run: &Run) -> String {
    let given = |of: fn(&Masked) -> String| run.masked.as_ref().map_or("null".to_string(), of);
    let offsets = match run.masked.map(|masked| (masked.start.one(), masked.start.offsets)) {
        None => ("offset", "null".to_string()),
        Some((Some(offset), _)) => ("offset", offset.to_string()),
        Some((None, sixteen)) => ("offsets", format!("{:?}", sixteen.as_bytes())),
    };
    object(vec![
        ("block", bytes(&run.block)),
        offsets,
        ("step", given(|masked| masked.step.number().to_string())),
        ("masks", given(|masked| bytes(masked.masks.as_bytes()))),
        ("states", states(run.points(), &run.recorded)),
    ])
}

/// A line for each.
fn states(points: impl Iterator<Item = Point>, recorded: &Recorded) -> String {
    let masks = recorded.masks();
    let rows = points.map(|point| {
        let [plain, mask, state] = [&recorded.plain, &masks, &recorded.states].map(|of| bytes(&of[16 * point.number()..][..16]));
        let mut parts = named(point);
        parts.extend([("plain", plain), ("mask", mask), ("mask_name", string(&recorded.covers[point.number()].name()))]);
        parts.push(("state", state));
        object(parts)
    });
    format!("[\n{}\n]", rows.collect::<Vec<_>>().join(",\n"))
}

fn named(point: Point) -> Vec<(&'static str, String)> {
    vec![("n", point.number().to_string()), ("after", string(&point.to_string())), ("round", point.round().to_string())]
}

fn difference(pair: &Pair) -> String {
    let Counts { under, by_masks, hidden } = pair.all();
    object(vec![
        ("bytes", (under + by_masks).to_string()),
        ("states", pair.states().to_string()),
        ("under_masks", under.to_string()),
        ("by_masks_alone", by_masks.to_string()),
        ("hidden_by_masks", hidden.to_string()),
        ("first", place(pair, pair.first())),
        ("first_under_masks", place(pair, pair.first_under())),
    ])
}

/// A byte of both sides and its masks, the first side's first.
fn place(pair: &Pair, byte: Option<usize>) -> String {
    let byte = match byte {
        None => return "null".to_string(),
        Some(byte) => byte,
    };
    let mut parts = named(pair.points().nth(byte / 16).expect("one for each sixteen bytes"));
    let both = |of: &dyn Fn(&Recorded) -> String| format!("[{}, {}]", of(&pair.sides[0]), of(&pair.sides[1]));
    parts.extend([
        ("byte", (byte % 16).to_string()),
        ("recorded", both(&|side| bytes(&side.states[byte..=byte]))),
        ("under_mask", both(&|side| bytes(&side.plain[byte..=byte]))),
        ("mask_names", both(&|side| string(&side.covers[byte / 16].name()))),
    ]);
    object(parts)
}

fn object(parts: Vec<(&str, String)>) -> String {
    let parts: Vec<String> = parts.into_iter().map(|(name, value)| format!("\"{name}\": {value}")).collect();
    format!("{{{}}}", parts.join(", "))
}

fn bytes(bytes: &[u8]) -> String {
    string(&digits(bytes))
}
