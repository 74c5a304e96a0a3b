//! Compares the library with the reference on the cases of one call that is lent buffers.

use crate::answer::Answer;
use crate::cases::draw;
use crate::cipher::Boxes;
use crate::lent::Lent;
use crate::random::Random;
use crate::replies::{opens, reply, Cause};
use crate::report::Tally;
use crate::table::Call;

/// How often every set of a call's refusals is met at the start: so each alone, each pair, and none.
const TIMES_EACH: usize = 8;

/// The cases of one call so far. Spoiled expectations must all be found to differ.
pub struct Trial<'a> {
    pub call: &'a Call,
    pub boxes: &'a Boxes,
    pub spoiled: bool,
    pub tally: Tally,
}

impl Trial<'_> {
    /// Compares one case, and gives the number that is expected of it.
    pub fn case(&mut self, random: &mut Random, mut lent: Lent) -> u8 {
        let mut expected = lent.clone();
        let mut answer = answer(self.call, self.boxes, &mut expected);
        let number = answer.number;
        if self.spoiled {
            spoil(random, &mut answer, &mut expected);
        }
        let offsets: Vec<&u8> = lent.byte_offsets.lent().iter().take(17).collect();
        let (offset, step, form, counted) = (lent.offset, lent.step, lent.form, lent.counted);
        let numbers = format!("offset {offset}, of bytes {offsets:?}, step {step}, form {form}, {counted:?}");
        let given = (self.call.library)(&mut lent);
        let difference = lent.first_difference(&expected);
        let same = given == answer && difference.is_none();
        if !same && !self.spoiled && self.tally.differ == 0 {
            let lent = difference.map(|name| format!(", and the {name} differs")).unwrap_or_default();
            let (name, case) = (self.call.name, self.tally.compared);
            println!("{name}, case {case}, {numbers}: expected {answer:?}, given {given:?}{lent}");
        }
        self.tally.add(same);
        number
    }
}

pub fn compare(trial: &mut Trial, random: &mut Random, cases: usize) {
    for case in 0..cases {
        let broken = broken(trial.call, random, case);
        let lent = draw(random, trial.boxes, trial.call.refusals, &broken);
        let number = trial.case(random, lent);
        assert_eq!(number, broken.first().map_or(0, |cause| cause.number()), "drawn as asked");
    }
}

/// Every form, for a call that has one; and whether it has.
pub fn compare_forms(trial: &mut Trial, random: &mut Random) -> bool {
    let refusals = trial.call.refusals;
    if !refusals.contains(&Cause::Form) {
        return false;
    }
    for form in 0..=255 {
        let lent = draw(random, trial.boxes, refusals, &[]);
        trial.case(random, Lent { form, ..lent });
    }
    true
}

/// Which refusals a case is to meet: first every set of them, and later one case in eight meets any set.
fn broken(call: &Call, random: &mut Random, case: usize) -> Vec<Cause> {
    let sets = 1 << call.refusals.len();
    let set = match case {
        _ if case < TIMES_EACH * sets => case % sets,
        _ if random.below(8) == 0 => random.below(sets),
        // A wrapped key can be broken in many ways: integrity, the last cause, is met alone as often.
        _ if opens(call.refusals) && random.below(8) == 0 => sets / 2,
        _ => 0,
    };
    let chosen = call.refusals.iter().enumerate().filter(|(i, _)| set >> i & 1 == 1);
    chosen.map(|(_, cause)| *cause).collect()
}

/// What should be answered, and what lent should hold then: the same as before, where the call is refused.
fn answer(call: &Call, boxes: &Boxes, lent: &mut Lent) -> Answer {
    let number = reply(call.refusals, boxes, lent);
    let value = if number == 0 { (call.reference)(boxes, lent) } else { 0 };
    Answer { number, value }
}

/// Changes one bit of what is expected: of the answer, or of the bytes that were lent or lie beside them.
fn spoil(random: &mut Random, answer: &mut Answer, lent: &mut Lent) {
    match random.below(2) {
        0 => answer.spoil(random),
        _ => lent.spoil(random),
    }
}
