//! What a stream seems to be whose packets do not follow one another every 188 bytes.

/// How far apart the sync bytes of other streams stand, what comes before the first, and what such streams are.
const OTHERS: [(u64, u64, &str); 2] = [
    (192, 4, "the stream seems to be of 192-byte packets (M2TS, 4 bytes before each packet)"),
    (204, 0, "the stream seems to be of 204-byte packets (16 bytes of Reed-Solomon parity behind each packet)"),
];

/// Looks at bytes from a place of the stream on, a packet or more: every sync byte that another stream has there must be there.
pub fn seems(place: u64, bytes: &[u8]) -> Option<&'static str> {
    let fits = |apart: u64, before: u64| {
        let first = (before + apart - place % apart) % apart;
        let mut syncs = bytes.iter().skip(first as usize).step_by(apart as usize).peekable();
        syncs.peek().is_some() && syncs.all(|byte| *byte == 0x47)
    };
    OTHERS.iter().find(|(apart, before, _)| fits(*apart, *before)).map(|other| other.2)
}
