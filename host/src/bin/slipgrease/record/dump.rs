//! What a receiver has dumped of its run, and the masks that are found on it.

use crate::fault::Fault;
use crate::hex;
use crate::input::Input;
use crate::record::cover::{Cover, Start};
use crate::record::run::{xor, Masked, Recorded, Run};
use crate::shown::count;
use crate::words::words_of;
use slipgrease::{Direction, Masks, Offset, Offsets, Point, Rounds, Stage, Step};
use std::io::Read;

/// More than any dump has, with a word on every line.
const LONGEST: usize = 1 << 16;

/// The states in a file, sixteen bytes each: just so many bytes, or a line of hex digits for each state.
pub fn read(input: &mut Input, direction: Direction, rounds: Rounds) -> Result<Vec<u8>, Fault> {
    let mut bytes = Vec::new();
    let read = input.reader().take(LONGEST as u64 + 1).read_to_end(&mut bytes);
    read.map_err(|error| Fault::at(&input.name, error))?;
    let (name, states) = (&input.name, direction.states(rounds));
    if bytes.len() == 16 * states {
        return Ok(bytes);
    }
    let expected = format!("{} bytes or {states} lines of hex digits are expected", 16 * states);
    let wrong = |found: String| Fault::caller(format!("{name}: {found}, and {expected}{}", other_run(direction, rounds, &bytes)));
    if bytes.len() > LONGEST {
        return Err(wrong(format!("more than {LONGEST} bytes")));
    }
    let text = match std::str::from_utf8(&bytes) {
        Ok(text) if text.trim_start().starts_with(|c: char| c.is_ascii_hexdigit() || c == '#') => text,
        _ => return Err(wrong(count(bytes.len(), "byte"))),
    };
    let mut dumped = Vec::new();
    for (line, words) in (1..).zip(text.lines().map(words_of)).filter(|(_, words)| !words.is_empty()) {
        match hex::unrepeated::<16>(&words.concat()) {
            Ok(state) => dumped.extend(state),
            Err(found) => return Err(Fault::caller(format!("{name}, line {line}: {found}; {expected}"))),
        }
    }
    match dumped.len() == 16 * states {
        true => Ok(dumped),
        false => Err(wrong(count(dumped.len() / 16, "state"))),
    }
}

/// A word for who has dumped the other direction's run, or one with a key of another length.
fn other_run(direction: Direction, rounds: Rounds, bytes: &[u8]) -> String {
    let lines = bytes.iter().filter(|&&byte| byte == b'\n').count();
    let fits = |way: Direction, rounds: Rounds| [bytes.len(), 16 * lines].contains(&(16 * way.states(rounds)));
    let (other, said) = match direction {
        Direction::Encryption => (Direction::Decryption, "; a decryption's dump is compared with --decrypt"),
        Direction::Decryption => (Direction::Encryption, "; an encryption's dump is compared without --decrypt"),
    };
    if fits(other, rounds) {
        return said.to_string();
    }
    let named = |(way, rounds): (Direction, Rounds)| {
        let a = if way == Direction::Encryption { "an" } else { "a" };
        format!("of {a} {way} with a key of {} bytes", rounds.key_bytes())
    };
    let runs = [direction, other].into_iter().flat_map(|way| Rounds::all().map(move |its| (way, its)));
    let fitting: Vec<String> = runs.filter(|&(way, its)| !fits(direction, rounds) && fits(way, its)).map(named).collect();
    match fitting.is_empty() {
        true => String::new(),
        false => format!("; so long is the dump {}", fitting.join(", or ")),
    }
}

/// A dump beside a run.
pub struct Found {
    pub recorded: Recorded,
    /// The other start at which states are read that no mask explains.
    pub read_at: Option<Start>,
    /// Of the first byte that differs under the masks, a mask that would explain it by itself.
    pub alone: Option<Cover>,
}

/// A state that is the run's plain one under any mask of the rules is taken to be under that mask. Any other is taken to be under
/// the one that is due, or where the dump has another start, that is due there, so that what is under it differs.
pub fn found(run: &Run, states: Vec<u8>) -> Found {
    let rules = Rules::new(run);
    let (recorded, due) = (&run.recorded, run.recorded.masks());
    let lying = xor(&recorded.plain, &states);
    let explain = |here| match state(&lying, here) == state(&due, here) {
        true => Some(recorded.covers[here]),
        false => rules.explain(here, state(&lying, here)),
    };
    let explained: Vec<Option<Cover>> = (0..rules.points.len()).map(explain).collect();
    let read_at = rules.other_start(&explained, &recorded.covers);
    let (mut plain, mut covers) = (Vec::new(), Vec::new());
    for (here, explained) in explained.into_iter().enumerate() {
        let (under, cover) = match (explained, read_at) {
            (Some(cover), _) => (state(&recorded.plain, here).to_vec(), cover),
            (None, Some(rule)) => (xor(state(&states, here), state(&rules.masks[rule], here)), rules.cover(here, rule)),
            (None, None) => (xor(state(&states, here), state(&due, here)), recorded.covers[here]),
        };
        plain.extend(under);
        covers.push(cover);
    }
    let first = (0..plain.len()).find(|&byte| plain[byte] != recorded.plain[byte]);
    let alone = first.and_then(|byte| rules.explain_byte(byte, lying[byte]));
    Found { recorded: Recorded { states, plain, covers }, read_at: read_at.map(|rule| rules.starts[rule]), alone }
}

fn state(states: &[u8], here: usize) -> &[u8] {
    &states[16 * here..][..16]
}

/// The masks of runs that differ from a run in this alone, that they begin so many labels on from its offsets. Beside a plain run
/// they are the published ones, of each offset and of step 1.
struct Rules {
    points: Vec<Point>,
    step: Step,
    starts: Vec<Start>,
    /// Those of each start.
    masks: Vec<Vec<u8>>,
}

impl Rules {
    fn new(run: &Run) -> Rules {
        let zero = Start::new(Offset::new(0).expect("at most 15"), "o");
        let published = Masked { masks: Masks::PUBLISHED, start: zero, step: Step::ONE };
        let Masked { masks, start, step } = run.masked.unwrap_or(published);
        // From the run's own start on, so that of masks that are alike the nearest label is named.
        let starts: Vec<Start> = (0..16).map(|labels| start.on(labels)).collect();
        let masks = starts.iter().map(|start| ruled(run, &masks, start.reached(), step)).collect();
        Rules { points: run.points().collect(), step, starts, masks }
    }

    fn cover(&self, here: usize, rule: usize) -> Cover {
        Cover(Some((self.points[here], self.starts[rule], self.step)))
    }

    /// The mask that lies over a state: first as the mask of its point, then as one of any other.
    fn explain(&self, here: usize, lying: &[u8]) -> Option<Cover> {
        let any = std::iter::once(here).chain(0..self.points.len()).flat_map(|point| (0..16).map(move |rule| (point, rule)));
        let mut fitting = any.filter(|&(point, rule)| state(&self.masks[rule], point) == lying);
        fitting.next().map(|(point, rule)| self.cover(point, rule))
    }

    /// The mask of its point that would lie over one byte; at the end, where none is, the last that was.
    fn explain_byte(&self, byte: usize, lying: u8) -> Option<Cover> {
        let here = byte / 16 - usize::from(self.points[byte / 16].stage() == Stage::Uncovering);
        let rule = (0..16).find(|&rule| state(&self.masks[rule], here)[byte % 16] == lying)?;
        Some(self.cover(here, rule))
    }

    /// The other start at which a dump is to be read that masks do not explain: its first state shows it, and none is as due.
    fn other_start(&self, explained: &[Option<Cover>], due: &[Cover]) -> Option<usize> {
        let mut covered = self.points.iter().filter(|point| point.stage() != Stage::Uncovering).map(|point| point.number());
        let is_other = explained.contains(&None) && covered.all(|here| explained[here] != Some(due[here]));
        (0..16).find(|&rule| is_other && explained[0] == Some(self.cover(0, rule)))
    }
}

/// The masks of such a run at other offsets, whatever it encrypts: what its states and those of a run under masks 00 differ in.
fn ruled(run: &Run, masks: &Masks, offsets: Offsets, step: Step) -> Vec<u8> {
    let any_block = [0; 16];
    let record = |masks: &Masks| match run.direction {
        Direction::Encryption => run.schedule.record_masked(&any_block, masks, offsets, step),
        Direction::Decryption => run.schedule.record_masked_decryption(&any_block, masks, offsets, step),
    };
    xor(record(masks).as_bytes(), record(&Masks::new([0; 16])).as_bytes())
}
