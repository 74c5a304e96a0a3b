//! The packet scrambler over slices.

use crate::calls;
use crate::refusal::Refusal;

/// Scrambles a transport packet of ISO/IEC 13818-1, 188 bytes, by the list of seven pipes: 3,486 bytes, for each pipe its PID in
/// two bytes, the higher first, its even schedule, its odd schedule and its starting block.
///
/// Of a listed PID, the whole 16-byte blocks of the payload are encrypted by CBC with the pipe's even or odd schedule, from its
/// starting block on; a rest under 16 bytes stays clear, and the scrambling bits become 10, or 11 where `odd` is true. A packet
/// with a payload under 16 bytes, or none, is copied, and so is one of a PID that is not listed.
///
/// Refused, in this order: either packet not 188 bytes, sync byte not 47, list wrong; and for a listed PID only, adaptation field
/// wrong, scrambling bits not 00.
///
/// ```
/// use slipgrease::Refusal;
///
/// let mut pipes = [0; 7 * 498];
/// for (k, pipe) in pipes.chunks_exact_mut(498).enumerate() {
///     pipe[..2].copy_from_slice(&(0x100 + k as u16).to_be_bytes());
///     slipgrease::expand_key(&[k as u8; 32], &mut pipe[2..242])?;
///     slipgrease::expand_key(&[0x80 + k as u8; 32], &mut pipe[242..482])?;
/// }
/// let mut packet = [0xff; 188];
/// packet[..4].copy_from_slice(&[0x47, 0x01, 0x03, 0x10]);
///
/// let (mut there, mut back) = ([0; 188], [0; 188]);
/// slipgrease::scramble(&packet, &mut there, &pipes, true)?;
/// assert_eq!(there[..4], [0x47, 0x01, 0x03, 0xd0]);
/// assert_eq!(there[180..], [0xff; 8]);
/// slipgrease::descramble(&there, &mut back, &pipes)?;
/// assert_eq!(back, packet);
/// assert_eq!(slipgrease::scramble(&there, &mut back, &pipes, true), Err(Refusal::BitsWrong));
/// # Ok::<(), slipgrease::Refusal>(())
/// ```
pub fn scramble(packet: &[u8], packet_out: &mut [u8], pipes: &[u8], odd: bool) -> Result<(), Refusal> {
    Refusal::check(calls::scramble(packet, packet_out, pipes, odd))
}

/// Descrambles a transport packet: of a listed PID, the bits name the even or the odd schedule, and become 00. A packet whose bits
/// are 00 is copied, and so is one of a PID that is not listed. So every packet that [`scramble`] took comes back.
///
/// Refused, in this order: either packet not 188 bytes, sync byte not 47, list wrong; and for a listed PID only, adaptation field
/// wrong, scrambling bits 01, or 10 or 11 over a payload under 16 bytes or none.
///
/// ```
/// use slipgrease::Refusal;
///
/// let mut packet = [0; 188];
/// packet[0] = 0x47;
/// let mut untouched = [0x55; 188];
/// assert_eq!(slipgrease::descramble(&packet, &mut untouched, &[0; 7 * 498]), Err(Refusal::PipesWrong));
/// assert_eq!(untouched, [0x55; 188]);
/// ```
pub fn descramble(packet: &[u8], packet_out: &mut [u8], pipes: &[u8]) -> Result<(), Refusal> {
    Refusal::check(calls::descramble(packet, packet_out, pipes))
}

#[cfg(test)]
mod tests {
    use super::*;
    use Refusal::*;

    /// The lengths of the two packets, and what the first begins with.
    struct Lent {
        packet: usize,
        packet_out: usize,
        sync: u8,
        pid: u16,
        bits: u8,
        code: u8,
        field: u8,
    }

    const SOUND: Lent = Lent { packet: 188, packet_out: 188, sync: 0x47, pid: LISTED, bits: 0, code: 1, field: 0 };
    const LISTED: u16 = 0x0123;
    const UNLISTED: u16 = 0x0124;

    /// A list of any schedules, in which pipe 4 is the listed one, and whether it is right.
    fn lists() -> Vec<(Vec<u8>, bool)> {
        let of = |pids: [u16; 7]| pids.iter().flat_map(|pid| pid.to_be_bytes().into_iter().chain([3; 496])).collect::<Vec<u8>>();
        let right = of([0x0010, 0x1ffe, 0x0011, 0x0122, LISTED, 0x0125, 0x1000]);
        let with = |place: usize, pid: u16| {
            let mut list = right.clone();
            list[498 * place..][..2].copy_from_slice(&pid.to_be_bytes());
            (list, false)
        };
        vec![
            (right.clone(), true),
            (right[..3485].to_vec(), false),
            ([&right[..], &[3]].concat(), false),
            (vec![], false),
            with(0, 0x000f),
            with(6, 0x1fff),
            with(5, 0x2010),
            with(0, 0x1000),
            with(3, LISTED),
        ]
    }

    /// The first cause in the order 19, 20, 22, 21, 23.
    fn expected(lent: &Lent, list_right: bool, scrambles: bool) -> Result<(), Refusal> {
        let listed = lent.pid == LISTED;
        let payload = match (lent.code, lent.field) {
            (1, _) => Some(184),
            (2, 183) => Some(0),
            (3, 0..=182) => Some(183 - lent.field),
            _ => None,
        };
        let too_short = payload.map_or(false, |payload| payload < 16);
        let bits_wrong = if scrambles { lent.bits != 0 } else { lent.bits == 1 || lent.bits > 1 && too_short };
        let causes = [
            (lent.packet != 188 || lent.packet_out != 188, PacketLength),
            (lent.sync != 0x47, SyncLost),
            (!list_right, PipesWrong),
            (listed && payload.is_none(), FieldWrong),
            (listed && bits_wrong, BitsWrong),
        ];
        causes.into_iter().find(|cause| cause.0).map_or(Ok(()), |cause| Err(cause.1))
    }

    /// Both calls are refused as expected, and then nothing is written.
    fn try_both(lent: &Lent, list: &[u8], list_right: bool) {
        let [high, low] = lent.pid.to_be_bytes();
        let mut packet = [0xaa; 189];
        packet[..5].copy_from_slice(&[lent.sync, 0xe0 | high, low, lent.bits << 6 | lent.code << 4 | 9, lent.field]);
        for scrambles in [true, false] {
            let mut written = [0x55; 189];
            let (packet, packet_out) = (&packet[..lent.packet], &mut written[..lent.packet_out]);
            let reply = if scrambles {
                scramble(packet, packet_out, list, lent.field % 2 == 1)
            } else {
                descramble(packet, packet_out, list)
            };
            let Lent { pid, bits, code, field, .. } = lent;
            assert_eq!(reply, expected(lent, list_right, scrambles), "{pid:04x}, bits {bits}, code {code}, field {field}");
            assert_eq!(written == [0x55; 189], reply.is_err(), "{pid:04x}, bits {bits}, code {code}, field {field}");
        }
    }

    /// Every header of a listed and of an unlisted PID.
    fn headers(fields: impl Iterator<Item = u8> + Clone) -> impl Iterator<Item = Lent> {
        let of_a_pid = move |pid| {
            let fields = fields.clone();
            fields.flat_map(move |field| (0..16).map(move |high| Lent { pid, bits: high / 4, code: high % 4, field, ..SOUND }))
        };
        [LISTED, UNLISTED].into_iter().flat_map(of_a_pid)
    }

    #[test]
    fn packets_are_refused_by_their_header() {
        let (list, list_right) = &lists()[0];
        for lent in headers(0..=255) {
            try_both(&lent, list, *list_right);
        }
    }

    /// Headers at the edges of the field, with every set of other causes.
    #[test]
    fn calls_are_refused_in_their_order() {
        for (list, list_right) in lists() {
            for (packet, packet_out) in
                [(188, 188), (187, 188), (189, 188), (188, 187), (188, 189), (0, 188), (188, 0), (187, 187)]
            {
                for sync in [0x47, 0x46, 0xb8] {
                    for lent in headers([0, 167, 168, 182, 183, 184].into_iter()) {
                        try_both(&Lent { packet, packet_out, sync, ..lent }, &list, list_right);
                    }
                }
            }
        }
    }
}
