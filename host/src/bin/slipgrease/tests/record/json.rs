//! Records as JSON, read here by a reader of its own.

use super::super::{offsets::SIXTEEN, printed, typed, BLOCK, CIPHERTEXT, KEY, PUBLISHED};
use super::{differing, OTHER_KEY};
use std::collections::BTreeMap;

#[derive(Debug, PartialEq)]
enum Json {
    Null,
    Number(usize),
    Text(String),
    List(Vec<Json>),
    Object(BTreeMap<String, Json>),
}

use Json::{List, Null, Number, Object, Text};

impl Json {
    fn at(&self, path: &str) -> &Json {
        path.split('.').fold(self, |json, name| match json {
            Object(parts) => &parts[name],
            List(items) => &items[name.parse::<usize>().unwrap()],
            other => panic!("{other:?} has no {name}"),
        })
    }
}

/// A value and what follows it. No sign in a text is written with a backslash here.
fn value(said: &str) -> (Json, &str) {
    let said = said.trim_start();
    match said.chars().next().expect("a value") {
        '{' => {
            let (parts, rest) = items(&said[1..], '}', |said| {
                let (name, rest) = value(said);
                let (value, rest) = value(rest.trim_start().strip_prefix(':').expect("a colon"));
                match name {
                    Text(name) => ((name, value), rest),
                    other => panic!("{other:?} is no name"),
                }
            });
            let count = parts.len();
            let parts: BTreeMap<String, Json> = parts.into_iter().collect();
            assert_eq!(parts.len(), count, "a name stands twice");
            (Object(parts), rest)
        }
        '[' => {
            let (list, rest) = items(&said[1..], ']', value);
            (List(list), rest)
        }
        '"' => {
            let (text, rest) = said[1..].split_once('"').expect("the end of a text");
            assert!(!text.contains(|c: char| c == '\\' || c.is_control()), "{text}");
            (Text(text.to_string()), rest)
        }
        'n' => (Null, said.strip_prefix("null").expect("null")),
        _ => {
            let end = said.find(|c: char| !c.is_ascii_digit()).expect("the end of a number");
            (Number(said[..end].parse().unwrap()), &said[end..])
        }
    }
}

fn items<T>(said: &str, end: char, item: impl Fn(&str) -> (T, &str)) -> (Vec<T>, &str) {
    let (mut items, mut said) = (Vec::new(), said.trim_start());
    if let Some(rest) = said.strip_prefix(end) {
        return (items, rest);
    }
    loop {
        let (next, rest) = item(said);
        items.push(next);
        said = rest.trim_start();
        match said.strip_prefix(',') {
            Some(rest) => said = rest,
            None => return (items, said.strip_prefix(end).expect("the end of a list")),
        }
    }
}

fn read(said: &str) -> Json {
    let (json, rest) = value(said);
    assert_eq!(rest, "\n");
    json
}

fn text(said: &str) -> Json {
    Text(said.to_string())
}

#[test]
fn a_run_has_its_states() {
    let json = read(&printed(&format!("record --json --offset 0 --step 5 {KEY} {BLOCK}")));
    assert_eq!(
        (json.at("direction"), json.at("run.block"), json.at("run.masks")),
        (&text("encryption"), &text(BLOCK), &text(PUBLISHED))
    );
    assert_eq!((json.at("run.offset"), json.at("run.step")), (&Number(0), &Number(5)));
    let first = json.at("run.states.0");
    assert_eq!((first.at("plain"), first.at("mask"), first.at("mask_name")), (&text(BLOCK), &text(PUBLISHED), &text("Mask(0)")));
    assert_eq!(first.at("state"), &text("001e140a1709031d1d0309170a141e00"));
    let after_boxes = json.at("run.states.2");
    assert_eq!(
        (after_boxes.at("n"), after_boxes.at("round"), after_boxes.at("after")),
        (&Number(2), &Number(0), &text("boxes 0"))
    );
    assert_eq!(after_boxes.at("mask_name"), &text("Mask(5)"));
    assert_eq!((json.at("run.states.70.state"), json.at("run.states.70.mask_name")), (&text(CIPHERTEXT), &text("none")));

    let plain = read(&printed(&format!("record --decrypt --json {KEY} {CIPHERTEXT}")));
    assert_eq!((plain.at("direction"), plain.at("run.offset"), plain.at("run.masks")), (&text("decryption"), &Null, &Null));
    assert_eq!(plain.at("run.states.84.state"), &text(BLOCK));
    match (&plain, plain.at("run.states")) {
        (Object(parts), List(states)) => assert_eq!((parts.len(), states.len()), (2, 85)),
        other => panic!("{other:?}"),
    }
}

#[test]
fn two_runs_have_their_difference() {
    let json = read(&differing(&format!("record --json --offset 3 --offset2 7 --key2 {OTHER_KEY} {KEY} {BLOCK}")));
    assert_eq!(json.at("another"), &List(vec![text("key"), text("offset")]));
    assert_eq!((json.at("run.offset"), json.at("second.offset")), (&Number(3), &Number(7)));
    let (first, under) = (json.at("difference.first"), json.at("difference.first_under_masks"));
    // Block byte 0 is 00, under masks 3 and 7.
    assert_eq!((first.at("n"), first.at("byte"), first.at("after")), (&Number(0), &Number(0), &text("block")));
    assert_eq!(first.at("recorded"), &List(vec![text("39"), text("6a")]));
    assert_eq!(first.at("mask_names"), &List(vec![text("Mask(3)"), text("Mask(7)")]));
    assert_eq!((under.at("n"), under.at("byte"), under.at("round")), (&Number(6), &Number(15), &Number(1)));
    assert_eq!(under.at("under_mask"), &List(vec![text("05"), text("04")]));
    match ["bytes", "under_masks", "by_masks_alone", "hidden_by_masks"].map(|name| json.at("difference").at(name)) {
        [Number(bytes), Number(under), Number(alone), Number(_)] => assert_eq!(*bytes, under + alone),
        other => panic!("{other:?}"),
    }
    let same = read(&printed(&format!("record --json --key2 {KEY} {KEY} {BLOCK}")));
    assert_eq!((same.at("difference.bytes"), same.at("difference.first")), (&Number(0), &Null));
}

/// In place of one offset, and where one stands for them there is that.
#[test]
fn sixteen_offsets_are_a_list() {
    let list = |offsets: &str| List(offsets.split(',').map(|offset| Number(offset.parse().unwrap())).collect());
    let json = read(&differing(&format!("record --json --offset {SIXTEEN} --offset2 7 {KEY} {BLOCK}")));
    assert_eq!((json.at("run.offsets"), json.at("second.offset")), (&list(SIXTEEN), &Number(7)));
    assert_eq!(json.at("another"), &List(vec![text("offset")]));
    assert_eq!(json.at("run.states.2.mask_name"), &text("Mask(o+1)"));
    assert_eq!(json.at("difference.first.mask_names"), &List(vec![text("Mask(o)"), text("Mask(7)")]));
    for (run, missing) in [("run", "offset"), ("second", "offsets")] {
        match json.at(run) {
            Object(parts) => assert!(!parts.contains_key(missing), "{run}"),
            other => panic!("{other:?}"),
        }
    }
    let second = read(&differing(&format!("record --json --offset2 {SIXTEEN} {KEY} {BLOCK}")));
    assert_eq!((second.at("run.offset"), second.at("second.offsets")), (&Null, &list(SIXTEEN)));
    assert_eq!(second.at("second.states.0.mask_name"), &text("Mask(o2)"));
}

/// A dump with another key and at another offset differs in what two such runs differ in.
#[test]
fn a_dump_is_read_at_its_offset() {
    let dump = printed(&format!("record --offset 7 {OTHER_KEY} {BLOCK}"));
    let covered = |line: &str| line.split_whitespace().filter(|word| word.len() == 32).nth(2).unwrap().to_string();
    let dump: Vec<String> = dump.lines().skip(2).map(covered).collect();
    let (out, failed) = typed(&format!("record --json --offset 3 --against - {KEY} {BLOCK}"), &dump.join("\n"));
    assert_eq!(failed, Some((String::new(), 3)));
    let runs = read(&differing(&format!("record --json --offset 3 --offset2 7 --key2 {OTHER_KEY} {KEY} {BLOCK}")));
    let json = read(&out);
    assert_eq!(json.at("difference"), runs.at("difference"));
    assert_eq!(json.at("dump.states.6.mask_name"), &text("Mask(8)"));
}

/// State 0 is not covered.
#[test]
fn a_dump_has_its_states() {
    let states = printed(&format!("record --offset 3 {KEY} {BLOCK}"));
    let covered = |line: &str| line.split_whitespace().filter(|word| word.len() == 32).nth(2).unwrap().to_string();
    let mut dump: Vec<String> = states.lines().skip(2).map(covered).collect();
    dump[0] = BLOCK.to_string();
    let (out, failed) = typed(&format!("record --json --offset 3 --against - {KEY} {BLOCK}"), &dump.join("\n"));
    assert_eq!(failed, Some((String::new(), 3)));
    let json = read(&out);
    assert_eq!((json.at("dump.states.0.state"), json.at("dump.states.0.mask_name")), (&text(BLOCK), &text("none")));
    assert_eq!(json.at("dump.states.70.state"), &text(CIPHERTEXT));
    // One of the sixteen masks is 00.
    assert_eq!((json.at("difference.by_masks_alone"), json.at("difference.states")), (&Number(15), &Number(1)));
    assert_eq!(json.at("difference.first_under_masks"), &Null);
}
