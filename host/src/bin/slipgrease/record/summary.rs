//! What a comparison comes to, in a few sentences.

use crate::record::compare::{Counts, Kind, Pair};
use crate::record::cover::{Cover, Start};
use slipgrease::{Point, Stage};

pub fn sentences(pair: &Pair) -> Vec<String> {
    let first = match pair.first() {
        None => return vec![format!("None of {} bytes differs.", pair.bytes())],
        Some(first) => first,
    };
    let [ours, theirs] = [0, 1].map(|side| format!("{} {:02x}", pair.called[side], pair.sides[side].states[first]));
    let mut said = vec![counted(pair), format!("First difference: {}: {ours}, {theirs}.", place(pair, first))];
    if pair.masked {
        said.extend(masks(pair, first));
        said.extend(other_start(pair));
        said.push(match pair.first_under() {
            None => "Under the masks nothing differs.".to_string(),
            Some(byte) if byte == first => format!("Under the mask it differs: xor {:02x}.", pair.under()[byte]),
            Some(byte) => format!("First difference under the masks: {}: xor {:02x}.", place(pair, byte), pair.under()[byte]),
        });
    }
    said
}

fn counted(pair: &Pair) -> String {
    let Counts { under, by_masks, hidden } = pair.all();
    let (differ, states) = (under + by_masks, pair.states());
    let s = if differ == 1 { "s" } else { "" };
    let mut said = format!("{differ} of {} bytes differ{s}, in {states} of {} states", pair.bytes(), pair.points().count());
    if pair.masked {
        said += &format!(": {under} under the masks, {by_masks} by the masks alone");
    }
    said += &match hidden {
        0 => String::new(),
        1 => "; 1 more differs under the masks and is recorded alike".to_string(),
        _ => format!("; {hidden} more differ under the masks and are recorded alike"),
    };
    said + "."
}

/// The state and the byte, with the point and the round.
fn place(pair: &Pair, byte: usize) -> String {
    let point = point(pair, byte);
    format!("state {}, byte {} ({point}, round {})", point.number(), byte % 16, point.round())
}

fn point(pair: &Pair, byte: usize) -> Point {
    pair.points().nth(byte / 16).expect("one for each sixteen bytes")
}

/// Which mask should lie over the first byte that differs, and which does.
fn masks(pair: &Pair, first: usize) -> Vec<String> {
    match pair.is_dump {
        false => vec![beside(pair, first)],
        true => against(pair, first),
    }
}

fn beside(pair: &Pair, first: usize) -> String {
    let under = |name: &str| if name == "none" { "under no mask".to_string() } else { format!("under {name}") };
    let [ours, theirs] = [0, 1].map(|side| pair.sides[side].covers[first / 16].name());
    let [a, b] = [0, 1].map(|side| pair.sides[side].masks()[first]);
    match ours == theirs {
        false => format!("The first is {} there, the second {}.", under(&ours), under(&theirs)),
        true if a == b => format!("Both are {} there.", under(&ours)),
        true => format!("Both are {} there, whose byte is {a:02x} in the first and {b:02x} in the second.", under(&ours)),
    }
}

/// Labels are counted from the run's offsets, as the rules have them, and named as in the table too.
fn against(pair: &Pair, first: usize) -> Vec<String> {
    let [due, found] = [0, 1].map(|side| pair.sides[side].covers[first / 16]);
    let counted = |cover: Cover| if pair.due_from.is_some() { cover.counted() } else { cover.name() };
    let due_there = if due.name() == "none" { "no mask is due".to_string() } else { format!("{} is due", counted(due)) };
    let by_masks = pair.kind(first) == Kind::ByMasks;
    match found.name().as_str() {
        "none" if by_masks => vec![format!("Not covered where {due_there}{}.", labels(pair, &[due]))],
        _ if by_masks => vec![format!("Covered by {} where {due_there}{}.", counted(found), labels(pair, &[found, due]))],
        _ => {
            let other = if due.name() == "none" { "no mask" } else { "no mask of another label" };
            let whole = format!("Where {due_there}{}, {other} covers the whole state.", labels(pair, &[due]));
            let alone = match pair.alone {
                Some(cover) => format!("Byte {} alone is as {} would cover it.", first % 16, counted(cover)),
                None => format!("Nor is byte {} alone as one would cover it.", first % 16),
            };
            vec![whole, alone]
        }
    }
}

/// As (o = 3: Mask(7), Mask(6)). At sixteen offsets the table counts from these itself.
fn labels(pair: &Pair, covers: &[Cover]) -> String {
    let names: Vec<String> = covers.iter().map(|cover| cover.name()).filter(|name| name != "none").collect();
    match pair.due_from.and_then(Start::one) {
        Some(offset) if !names.is_empty() => format!(" (o = {offset}: {})", names.join(", ")),
        _ => String::new(),
    }
}

/// Where a dump has the masks of one other start from its first state on, or is read as if it had.
fn other_start(pair: &Pair) -> Option<String> {
    if let Some(start) = pair.read_at {
        let there = if start.one().is_some() { "that offset" } else { "those offsets" };
        return Some(format!("Read at {start}: what differs under the masks is what differs from the run at {there}."));
    }
    let covers = &pair.sides[1].covers;
    let (_, start, step) = covers[0].0.filter(|(_, start, _)| pair.is_dump && pair.due_from != Some(*start))?;
    let mut covered = pair.points().filter(|point| point.stage() != Stage::Uncovering);
    let throughout = covered.all(|point| covers[point.number()] == Cover(Some((point, start, step))));
    throughout.then(|| format!("All of its masks are those of {start}."))
}
