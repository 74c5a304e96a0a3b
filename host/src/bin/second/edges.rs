//! The edges that the scope and the requests name, one by one.

mod counts;
mod keys;
mod offsets;
mod packets;
mod records;
mod sheets;
mod steps;
mod stored;
mod wraps;

use crate::masked::PUBLISHED;
use crate::report::Tally;
use slipgrease::calls;

/// A name, what the library gave and what it should give.
pub struct Edge {
    name: String,
    given: u16,
    expected: u16,
}

/// Prints each edge, and counts those that are not where they should be. A spoiled expectation must be found to differ.
pub fn compare(spoiled: bool) -> Tally {
    let mut tally = Tally::default();
    let edges = [
        keys::lengths(),
        keys::expanded(),
        keys::ciphertexts(),
        keys::refused_records(),
        keys::last_masks(),
        huge(),
        offsets_and_forms(),
        offsets::refused(),
        offsets::masks(),
        offsets::of_one_offset(),
        steps::refused(),
        steps::masks(),
        many_blocks(),
        powers(),
        sheets::read(),
        sheets::written(),
        records::refused(),
        records::zero_masks(),
        fitness(),
        counts::inside_and_outside(),
        counts::by_hand(),
        counts::refused(),
        stored::refused(),
        stored::converted(),
        records::box_order(),
        wraps::examples(),
        wraps::refused(),
        wraps::schedules(),
        wraps::broken(),
        packets::example(),
        packets::fields(),
        packets::refused(),
        packets::unlisted(),
    ];
    for edge in edges.into_iter().flatten() {
        let expected = edge.expected ^ u16::from(spoiled);
        let same = edge.given == expected;
        let verdict = if same { String::new() } else { format!(", and should be {expected}") };
        println!("  {:<56} {:>5}{verdict}", edge.name, edge.given);
        tally.add(same);
    }
    tally
}

fn edge(name: impl Into<String>, given: impl Into<u16>, expected: u16) -> Edge {
    Edge { name: name.into(), given: given.into(), expected }
}

/// A mebibyte where a few bytes are wanted.
fn huge() -> Vec<Edge> {
    let many = vec![0; 1 << 20];
    let sheet = [b"MSK\x00\x01", &many[5..]].concat();
    vec![
        edge("reply to a key of a mebibyte", calls::expand_key(&many, &mut [0; 240]), 1),
        edge("reply to a schedule of a mebibyte", calls::encrypt(&many, &[0; 16], &mut [0; 16]), 2),
        edge("reply to a block of a mebibyte", calls::encrypt(&[0; 240], &many, &mut [0; 16]), 3),
        edge("reply to a mask table of a mebibyte", calls::fitness(&many) >> 8, 5),
        edge("the same, counted", calls::mask_count(&many, 2, 0, 5, 6, 7, 7) >> 8, 5),
        edge("the same, decrypting", calls::decrypt_masked(&[0; 240], &[0; 16], &mut [0; 16], &many, &many, 1), 5),
        edge("reply to key data of a mebibyte, wrapped", calls::wrap(&[0; 240], &many, &mut [0; 24]), 16),
        edge("reply to a wrapped key of a mebibyte", calls::unwrap(&[0; 240], &many, &mut [0; 16]), 17),
        edge("reply to a packet of a mebibyte", calls::scramble(&many, &mut [0; 188], &many, false), 19),
        edge("reply to a list of a mebibyte", calls::descramble(&[0x47; 188], &mut [0; 188], &many), 22),
        edge("reply to a sheet of a mebibyte", calls::read_sheet(&sheet, &mut [0; 16]) >> 8, 11),
    ]
}

fn offsets_and_forms() -> Vec<Edge> {
    let (w, block, masks) = ([0; 240], [0; 16], [0; 16]);
    let mut edges = Vec::new();
    for (offset, form, expected) in [(15, 0, 0), (16, 0, 6), (0, 1, 7), (0, 2, 7), (0, 255, 7), (16, 1, 6)] {
        let published = calls::encrypt_published(&w, &block, &mut [0; 16], &[offset; 16], 1, form);
        edges.push(edge(format!("reply to offset {offset}, form {form}, published masks"), published, expected));
        let masked = calls::encrypt_masked(&w, &block, &mut [0; 16], &masks, &[offset; 16], 1, form);
        edges.push(edge(format!("reply to offset {offset}, form {form}, any masks"), masked, expected));
    }
    for (offset, expected) in [(15, 0), (16, 6)] {
        let published = calls::decrypt_published(&w, &block, &mut [0; 16], &[offset; 16], 1);
        edges.push(edge(format!("reply to offset {offset}, published masks, decrypting"), published, expected));
        let masked = calls::decrypt_masked(&w, &block, &mut [0; 16], &masks, &[offset; 16], 1);
        edges.push(edge(format!("reply to offset {offset}, any masks, decrypting"), masked, expected));
    }
    edges
}

fn many_blocks() -> Vec<Edge> {
    let w = [0; 240];
    let called = |input: usize, output: usize, offsets: &[u8], form: u8| {
        calls::encrypt_blocks(&w, &vec![0; input], &mut vec![0; output], offsets, 1, form)
    };
    let mut edges = Vec::new();
    for (length, expected) in [(0, 0), (15, 3), (16, 0), (17, 3), (4096, 0), (4112, 3)] {
        let reply = called(length, length, &vec![0; length / 16], 0);
        edges.push(edge(format!("reply to many blocks, {length} bytes"), reply, expected));
    }
    let (mut kept, mut last) = ([1; 4096], [15; 256]);
    last[255] = 16;
    edges.extend([
        edge("reply to no blocks and room for one", called(0, 16, &[], 0), 4),
        edge("reply to no blocks and an offset", called(0, 0, &[0], 0), 14),
        edge("reply to 256 blocks and 255 offsets", called(4096, 4096, &last[..255], 0), 14),
        edge("reply to no blocks in form 1", called(0, 0, &[], 1), 7),
        edge("reply to no blocks and a short schedule", calls::encrypt_blocks(&w[1..], &[], &mut [], &[], 1, 0), 2),
        edge("reply to 256 blocks, the last offset 16", calls::encrypt_blocks(&w, &[0; 4096], &mut kept, &last, 1, 0), 6),
        edge("bytes that are written then", difference(&kept, &[1; 4096]), 0),
        edge("fault that reply 14 is, the caller's", calls::sort_reply(14), 1),
    ]);
    edges
}

fn powers() -> Vec<Edge> {
    vec![
        edge("reply to power 254", calls::power(254) >> 8, 0),
        edge("power 254 of 03, its inverse", calls::power(254) & 0xff, 0xf6),
        edge("reply to power 255", calls::power(255) >> 8, 10),
        edge("value beside it", calls::power(255) & 0xff, 0),
        edge("reply to the logarithm of 00", calls::logarithm(0) >> 8, 9),
        edge("value beside it", calls::logarithm(0) & 0xff, 0),
    ]
}

fn fitness() -> Vec<Edge> {
    let rising = std::array::from_fn(|i| i as u8);
    let mut edges = Vec::new();
    for (masks, name, expected) in
        [([0; 16], "masks all 00", 0), (rising, "masks 00 to 0f", 0), (PUBLISHED, "published masks", 1)]
    {
        let fitness = calls::fitness(&masks);
        edges.push(edge(format!("reply to the fitness test of {name}"), fitness >> 8, 0));
        edges.push(edge(format!("fitness of {name}"), fitness & 0xff, expected));
    }
    edges
}

fn difference(a: &[u8], b: &[u8]) -> u16 {
    a.iter().zip(b).filter(|(x, y)| x != y).count() as u16
}
