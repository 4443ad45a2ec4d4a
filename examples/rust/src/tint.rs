//! Tint orders: what the machine pumps, as the bytes of an order.

use crate::c;
use crate::refusal::{Refusal, done};

/// What one canister gives. In memory it is two 16-bit numbers, as the library takes them.
#[repr(C)]
#[derive(Clone, Copy, Debug, Default, PartialEq, Eq)]
pub struct Dose {
    /// The canister, 1 to 12.
    pub canister: u16,
    /// Its pump steps, 1 to 4,800.
    pub steps: u16,
}

const NUMBERS: usize = size_of::<Dose>() / size_of::<u16>();

/// Writes the tint order of these doses, one to [`MOST_DOSES`](crate::MOST_DOSES); the order, which is the first
/// [`tint_bytes`](crate::tint_bytes) bytes lent. Canisters rise, and all steps together are 20,000 or fewer. A sender is
/// then opened with it and with 8 times its bytes as the length.
pub fn write_tint<'a>(doses: &[Dose], order: &'a mut [u8]) -> Result<&'a [u8], Refusal> {
    let mut bytes = 0;
    done(unsafe {
        c::order_line_write_tint(
            doses.as_ptr().cast(),
            NUMBERS * doses.len(),
            doses.len(),
            order.as_mut_ptr(),
            order.len(),
            &mut bytes,
        )
    })?;
    Ok(&order[..bytes])
}

/// Reads a tint order; its doses, which are the first of those lent. [`MOST_DOSES`](crate::MOST_DOSES) are always room
/// enough.
///
/// **The slice is the whole order and nothing else.** Of a machine's store, after
/// [`Event::Ended`](crate::Event::Ended) with a length of so many bits, it is the first eighth as many bytes; the whole
/// store is refused.
pub fn read_tint<'a>(order: &[u8], doses: &'a mut [Dose]) -> Result<&'a [Dose], Refusal> {
    let mut count = 0;
    done(unsafe {
        c::order_line_read_tint(
            order.as_ptr(),
            order.len(),
            doses.as_mut_ptr().cast(),
            NUMBERS * doses.len(),
            &mut count,
        )
    })?;
    Ok(&doses[..count])
}

#[cfg(test)]
mod tests {
    use super::*;
    use crate::{MOST_DOSES, tint_bytes};

    const fn dose(canister: u16, steps: u16) -> Dose {
        Dose { canister, steps }
    }

    /// 480 is 01E0, 4,800 is 12C0.
    const DOSES: [Dose; 3] = [dose(2, 480), dose(5, 1), dose(12, 4800)];
    const ORDER: [u8; 12] = [1, 0, 9, 2, 0x01, 0xE0, 5, 0, 1, 12, 0x12, 0xC0];

    #[test]
    fn doses_are_written_and_read() {
        let mut order = [0xEE; tint_bytes(MOST_DOSES)];
        assert_eq!(write_tint(&DOSES, &mut order), Ok(&ORDER[..]));
        assert_eq!(order[ORDER.len()..], [0xEE; 27]);
        let mut doses = [dose(7, 7); MOST_DOSES];
        assert_eq!(read_tint(&ORDER, &mut doses), Ok(&DOSES[..]));
        assert_eq!(doses[DOSES.len()..], [dose(7, 7); 9]);
    }

    #[test]
    fn writing_is_refused() {
        let mut order = [0; tint_bytes(MOST_DOSES)];
        let mut write = |doses: &[Dose]| write_tint(doses, &mut order).err();
        assert_eq!(write(&[]), Some(Refusal::Format));
        assert_eq!(write(&[dose(5, 1), dose(5, 1)]), Some(Refusal::Entry));
        assert_eq!(write(&[dose(256 + 5, 1)]), Some(Refusal::Entry));
        assert_eq!(write(&[dose(1, 1); 13]), Some(Refusal::Entry));
        let doses: [Dose; 5] = core::array::from_fn(|i| dose(1 + i as u16, 4001));
        assert_eq!(write(&doses), Some(Refusal::Steps));
        assert_eq!(write(&doses[1..]), None);
        assert_eq!(write_tint(&DOSES, &mut [0; 11]), Err(Refusal::Short));
    }

    /// The store behind the order, too.
    #[test]
    fn reading_is_refused_and_leaves_the_doses() {
        let mut doses = [dose(7, 7); 2];
        let mut store = [0; 30];
        store[..ORDER.len()].copy_from_slice(&ORDER);
        let refusals = [
            (&store[..], Refusal::Format),
            (&[], Refusal::Format),
            (&[1, 0, 3, 13, 0, 1], Refusal::Entry),
            (&ORDER, Refusal::Short),
        ];
        for (order, refusal) in refusals {
            assert_eq!(read_tint(order, &mut doses), Err(refusal));
            assert_eq!(doses, [dose(7, 7); 2]);
        }
    }
}
