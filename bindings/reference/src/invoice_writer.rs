//! The invoice writer.

use crate::bech32::{self, Checksum, CHECKSUM_GROUPS};
use crate::invoice::{recovery_byte, summary, LONGEST, PREFIXES, SIGNATURE_GROUPS, TIME_GROUPS};
use crate::money;
use crate::output::Output;
use crate::refusal::{ensure, FIELDS, NO_GROUP, NO_PAYMENT_HASH, NO_ROOM, PREFIX, RECOVERY_BYTE, TEXT_TOO_LONG, TIME};
use crate::Refusal;

/// Writes an invoice's text to the front of the output and gives its length.
///
/// The prefix is 1 (lnbc) or 2 (lntb), the amount its characters in either case (none for no amount), fields and
/// signature are groups.
pub fn write(
    prefix: u64,
    amount: &[u8],
    time: u64,
    fields: &[u8],
    signature: &[u8],
    out: &mut [u8],
) -> Result<usize, Refusal> {
    ensure(time < 1 << 35, Refusal::bare(TIME))?;
    let groups = || fields.iter().chain(signature).copied();
    ensure(groups().all(|group| group <= 31), Refusal::bare(NO_GROUP))?;
    let prefix = match prefix {
        1 => PREFIXES[0],
        2 => PREFIXES[1],
        _ => return Err(Refusal::bare(PREFIX)),
    };
    if !amount.is_empty() {
        money::read_amount(amount)?;
    }
    ensure(signature.len() == SIGNATURE_GROUPS, Refusal::bare(FIELDS))?;
    let summary = summary(fields, 0, |_, _| ())?;
    ensure(recovery_byte(signature) <= 3, Refusal::bare(RECOVERY_BYTE))?;
    ensure(summary.payment.is_some(), Refusal::bare(NO_PAYMENT_HASH))?;
    let readable = prefix.len() + amount.len();
    let length = readable + 1 + TIME_GROUPS + fields.len() + SIGNATURE_GROUPS + CHECKSUM_GROUPS;
    ensure(length <= LONGEST, Refusal::bare(TEXT_TOO_LONG))?;

    let out = out.get_mut(..length).ok_or(Refusal::bare(NO_ROOM))?;
    let (front, data) = out.split_at_mut(readable);
    front[..prefix.len()].copy_from_slice(&prefix);
    front[prefix.len()..].copy_from_slice(amount);
    front.make_ascii_lowercase();
    let mut time_groups = [0; TIME_GROUPS];
    bech32::put_number(time, &mut time_groups);
    let checksum = Checksum::of_readable_part(front).with(time_groups.into_iter().chain(groups()));
    let mut output = Output::new(data);
    output.bytes(b"1");
    for run in [&time_groups, fields, signature, &checksum.closing()] {
        for (character, &group) in output.take(run.len()).iter_mut().zip(run) {
            *character = bech32::character_of(group);
        }
    }
    Ok(length)
}

#[cfg(test)]
mod tests {
    use super::*;
    use crate::{field, invoice};

    /// A p field of zero bytes.
    fn payment() -> Vec<u8> {
        let mut groups = vec![0; 55];
        field::from_bytes(1, &[0; 32], &mut groups).unwrap();
        groups
    }

    #[test]
    fn what_is_written_is_read() {
        let mut out = [0xa5; 200];
        let length = write(2, b"20M", 1_496_314_658, &payment(), &[0; 104], &mut out).unwrap();
        assert_eq!(&out[..15], b"lntb20m1pvjluez");
        assert_eq!(length, 7 + 1 + 7 + 55 + 104 + 6);
        assert_eq!(out[length], 0xa5);
        let read = invoice::judge(&out[..length]).unwrap();
        assert_eq!((read.prefix, read.msat), (2, Some(money::Msat(2_000_000_000))));
        assert_eq!((read.time, read.fields, read.payment), (1_496_314_658, 1, 0));
    }

    #[test]
    fn order_of_refusals() {
        let refused = |prefix, amount: &[u8], time, fields: &[u8], signature: &[u8]| {
            let mut out = [0xa5; 100];
            let refusal = write(prefix, amount, time, fields, signature, &mut out).unwrap_err();
            assert_eq!(out, [0xa5; 100]);
            assert_eq!((refusal.place, refusal.kind), (0, 0));
            refusal.number
        };
        let good = [0; 104];
        let mut recovery = good;
        recovery[103] = 4;
        let mut high = good;
        high[102] = 1;
        let payment = payment();
        assert_eq!(refused(0, b"x", 1 << 35, &[32], &[32]), 42);
        assert_eq!(refused(0, b"x", 0, &[], &[32]), 34);
        assert_eq!(refused(0, b"x", 0, &[32], &[]), 34);
        assert_eq!(refused(0, b"x", 0, &[1], &[]), 36);
        assert_eq!(refused(3, b"x", 0, &[1], &[]), 36);
        assert_eq!(refused(1, b"m", 0, &[1], &[]), 37);
        assert_eq!(refused(1, b"", 0, &[1], &good), 38);
        assert_eq!(refused(1, b"", 0, &[1, 0, 1], &recovery), 38);
        assert_eq!(refused(1, b"", 0, &payment, &[31; 103]), 38);
        assert_eq!(refused(1, b"", 0, &[], &recovery), 39);
        assert_eq!(refused(1, b"", 0, &[], &high), 39);
        assert_eq!(refused(1, b"", 0, &[], &good), 40);
        assert_eq!(refused(1, b"", 0, &[13; 0], &good), 40);
        let mut many = payment.clone();
        many.resize(55 + 3 * 1_307, 0);
        assert_eq!(4 + 1 + 7 + many.len() + 104 + 6, 4_098);
        assert_eq!(refused(1, b"", 0, &many, &good), 30);
        assert_eq!(refused(1, b"", 0, &many[..many.len() - 3], &good), 12);
    }
}
