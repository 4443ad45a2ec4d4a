//! Building and reading blocks: every k, good and refused, every service value, slices of every
//! kind, and blocks with every kind of damage.

use super::{hex, same, Difference, GroupFailure, GuardedBuffer, Tally};
use crate::calls::{Blocks, Reference};
use crate::damage::{at_powers, burst, invert, times_x};
use crate::damage::{Damage, ADMITTED_KINDS, OTHER_KINDS};
use crate::interface::decode_read;
use crate::reference::bits::{bits_of, pack, unpack, Bits};
use crate::reference::block::{assemble, block_bits, block_bytes, cancel, is_length};
use crate::reference::block::{payload_bytes, synchronising_block, Read, LENGTHS};
use crate::rng::Rng;

/// Numbers of data bits that are refused, the odd ones chosen near the four or their multiples.
pub const REFUSED_LENGTHS: [usize; 18] = [
    0,
    1,
    8,
    20,
    239,
    241,
    248,
    260,
    479,
    481,
    959,
    961,
    3839,
    3841,
    7680,
    (1 << 16) + 240,
    (1 << 32) + 240,
    usize::MAX,
];

/// Every multiple of 8, from 0 to beyond the longest block's; all but the four are refused.
pub fn multiples_of_8() -> impl Iterator<Item = usize> {
    (0..=4_000).step_by(8)
}

/// The name under which a case of a multiple of 8 is counted.
pub fn multiple_name(refused: bool) -> &'static str {
    match refused {
        true => "multiples of 8 refused",
        false => "multiples of 8 not refused",
    }
}

/// An error unless a group tried each of them this often, and was refused with all but the four.
pub fn require_multiples(tally: &Tally, times: usize) -> Result<(), GroupFailure> {
    tally.require_number(multiple_name(true), 497 * times)?;
    tally.require_number(multiple_name(false), 4 * times)
}

/// The names under which blocks that fail are counted.
const READ_FAILED_WITH_1: &str = "read failed with 1";
const READ_FAILED_OTHERWISE: &str = "read failed with another remainder";

/// What the group must have met.
pub const KINDS: [&str; 6] = [
    "built",
    "build refused",
    "read passed",
    READ_FAILED_WITH_1,
    READ_FAILED_OTHERWISE,
    "read refused",
];

/// Runs the whole group.
pub fn compare(tested: &impl Blocks, seed: u64, cases: usize) -> Result<Tally, GroupFailure> {
    let mut group = Group {
        tested,
        rng: Rng::new(seed),
        tally: Tally::default(),
    };
    group.arguments()?;
    group.multiples()?;
    group.single_bits()?;
    group.cancelled()?;
    group.bursts()?;
    for _ in 0..cases {
        group.random_case()?;
    }
    group.tally.require(&KINDS)?;
    require_multiples(&group.tally, 1)?;
    Ok(group.tally)
}

/// Some blocks that the tested implementation built, each as a line of k and hexadecimal.
pub fn built_blocks(tested: &impl Blocks, seed: u64, count: usize) -> String {
    let mut rng = Rng::new(seed);
    let mut lines = String::new();
    for i in 0..count {
        let k = LENGTHS[i % 4];
        let payload = payload(&mut rng, k);
        let mut block = vec![0; block_bytes(k)];
        let service = rng.below(16) as u8;
        let built = tested.build_block(k, service, &payload, &mut block);
        assert_eq!(built, 0, "k {k}, service bits {service}");
        lines += &format!("{k} {}\n", hex(&block));
    }
    lines
}

/// Data all zero, all one, or random.
fn payload(rng: &mut Rng, k: usize) -> Vec<u8> {
    let bytes = payload_bytes(k);
    match rng.below(8) {
        0 => vec![0; bytes],
        1 => vec![0xFF; bytes],
        _ => rng.bytes(bytes),
    }
}

struct Group<'a, B> {
    tested: &'a B,
    rng: Rng,
    tally: Tally,
}

impl<B: Blocks> Group<'_, B> {
    /// Every k with every service value and slices that are empty, short by one, right and long.
    fn arguments(&mut self) -> Result<(), Difference> {
        for k in LENGTHS.into_iter().chain(REFUSED_LENGTHS) {
            let data = payload_bytes(k.min(4000)).max(1);
            let whole = block_bytes(k.min(4000)).max(1);
            for payload_length in [0, data - 1, data, data + 7] {
                for block_length in [0, whole - 1, whole, whole + 9] {
                    self.services(k, payload_length, block_length)?;
                    self.read_passing(k, payload_length, block_length)?;
                }
            }
        }
        Ok(())
    }

    fn services(&mut self, k: usize, payload: usize, block: usize) -> Result<(), Difference> {
        for service in (0..=20).chain([127, 255]) {
            let payload = self.rng.bytes(payload);
            let block = GuardedBuffer::random(&mut self.rng, block);
            self.build(k, service, &payload, block)?;
        }
        Ok(())
    }

    /// Reads a block that would pass, and one that would not, from slices of these lengths.
    fn read_passing(&mut self, k: usize, payload: usize, block: usize) -> Result<(), Difference> {
        let known = if is_length(k) { k } else { 240 };
        let mut bytes = pack(&self.passing(known));
        bytes.extend(self.rng.bytes(16));
        bytes.resize(block, 0);
        self.read(k, &bytes, payload)?;
        if let Some(byte) = bytes.first_mut() {
            *byte ^= 0x80;
        }
        self.read(k, &bytes, payload)?;
        Ok(())
    }

    /// Every multiple of 8, with slices that would hold its block: one built, and two read, one of
    /// which would pass.
    fn multiples(&mut self) -> Result<(), Difference> {
        for k in multiples_of_8() {
            let data = payload(&mut self.rng, k);
            let service = self.rng.below(16) as u8;
            let block = GuardedBuffer::random(&mut self.rng, block_bytes(k));
            self.build(k, service, &data, block)?;
            let mut bits = assemble(service, &unpack(&data, 0, k));
            let read = self.read(k, &pack(&bits), payload_bytes(k))?;
            let name = multiple_name(matches!(read, Read::Refused(_)));
            self.tally.count(name);
            cancel(&mut bits);
            self.read(k, &pack(&bits), payload_bytes(k))?;
        }
        Ok(())
    }

    /// Every single bit inverted, the spare ones too, of a block that passes and of a synchronising
    /// block. In the one that passes each of the n bits leaves its power of x.
    fn single_bits(&mut self) -> Result<(), Difference> {
        for k in LENGTHS {
            let passing = pack(&self.passing(k));
            let synchronising = pack(&synchronising_block(k));
            let mut power = 1;
            for place in (0..8 * passing.len()).rev() {
                let read = self.read_inverted(k, &passing, place)?;
                self.read_inverted(k, &synchronising, place)?;
                if place < block_bits(k) {
                    let case = || format!("k {k}, bit {place} inverted");
                    same(&case, &Read::Failed(power), &read)?;
                    power = times_x(power);
                }
            }
        }
        Ok(())
    }

    fn read_inverted(&mut self, k: usize, block: &[u8], place: usize) -> Result<Read, Difference> {
        let mut damaged = block.to_vec();
        damaged[place / 8] ^= 0x80 >> (place % 8);
        self.read(k, &damaged, payload_bytes(k))
    }

    /// With every service value a cancelled block leaves 1. So does damage at powers 16, 12 and 5 in a
    /// block that is not cancelled, and with both it passes.
    fn cancelled(&mut self) -> Result<(), Difference> {
        for (k, service) in LENGTHS
            .into_iter()
            .flat_map(|k| (0..16).map(move |s| (k, s)))
        {
            let data = payload(&mut self.rng, k);
            let block = assemble(service, &unpack(&data, 0, k));
            let mut cancelled = block.clone();
            cancel(&mut cancelled);
            let damage = at_powers(block.len(), &[16, 12, 5]);
            let (mut damaged, mut both) = (block, cancelled.clone());
            invert(&mut damaged, &damage);
            invert(&mut both, &damage);
            let expected = [
                (cancelled, Read::Failed(1)),
                (damaged, Read::Failed(1)),
                (both, Read::Passed(service)),
            ];
            for (bits, expected) in expected {
                let read = self.read(k, &pack(&bits), payload_bytes(k))?;
                same(
                    &|| format!("k {k}, service bits {service}"),
                    &expected,
                    &read,
                )?;
            }
        }
        Ok(())
    }

    /// Bursts of each width from 2 to 17, the last of which may pass.
    fn bursts(&mut self) -> Result<(), Difference> {
        for k in LENGTHS {
            for width in 2..=17 {
                for _ in 0..100 {
                    let mut bits = self.passing(k);
                    let pattern = burst(&mut self.rng, block_bits(k), width);
                    invert(&mut bits, &pattern);
                    self.read(k, &pack(&bits), payload_bytes(k))?;
                }
            }
        }
        Ok(())
    }

    /// One block built into a random place, then read with random damage.
    fn random_case(&mut self) -> Result<(), Difference> {
        let k = self.rng.pick(&[240, 240, 240, 480, 480, 960, 3840]);
        let data = payload(&mut self.rng, k);
        let service = self.rng.below(18) as u8;
        let spare = self.rng.below(4);
        let block = GuardedBuffer::random(&mut self.rng, block_bytes(k) + spare);
        self.build(k, service, &data, block)?;
        let bytes = self.arriving(k);
        let spare = self.rng.below(4);
        self.read(k, &bytes, payload_bytes(k) + spare)?;
        Ok(())
    }

    /// A packed block as it may arrive: damaged, cancelled or both, with any spare bits.
    fn arriving(&mut self, k: usize) -> Vec<u8> {
        let mut bits = match self.rng.below(20) {
            0 => synchronising_block(k),
            _ => self.passing(k),
        };
        if self.rng.chance(20) {
            cancel(&mut bits);
        }
        let kinds: Vec<Damage> = ADMITTED_KINDS.into_iter().chain(OTHER_KINDS).collect();
        let damage = self.rng.pick(&kinds);
        let pattern = damage.pattern(&mut self.rng, block_bits(k));
        invert(&mut bits, &pattern);
        bits.extend(bits_of(self.rng.below(16), 4));
        pack(&bits)
    }

    /// All bits of some block that passes its check.
    fn passing(&mut self, k: usize) -> Bits {
        let data = payload(&mut self.rng, k);
        let mut block = vec![0; block_bytes(k)];
        let service = self.rng.below(16) as u8;
        let built = Reference.build_block(k, service, &data, &mut block);
        assert_eq!(built, 0);
        unpack(&block, 0, block_bits(k))
    }

    fn build(
        &mut self,
        k: usize,
        service: u8,
        payload: &[u8],
        block: GuardedBuffer,
    ) -> Result<(), Difference> {
        compare_build(self.tested, k, service, payload, block, &mut self.tally)
    }

    fn read(&mut self, k: usize, block: &[u8], length: usize) -> Result<Read, Difference> {
        let payload = GuardedBuffer::random(&mut self.rng, length);
        let remainder = self.rng.number();
        compare_read(self.tested, k, block, payload, remainder, &mut self.tally)
    }
}

/// Builds one block into a place.
pub fn compare_build(
    tested: &impl Blocks,
    k: usize,
    service: u8,
    payload: &[u8],
    block: GuardedBuffer,
    tally: &mut Tally,
) -> Result<(), Difference> {
    let length = block.slice().len();
    let case = || {
        let data = hex(payload);
        format!("build_block: k {k}, service bits {service}, {length} bytes, data {data}")
    };
    let (mut expected, mut got) = (block.clone(), block);
    let answer = Reference.build_block(k, service, payload, expected.slice_mut());
    let built = tested.build_block(k, service, payload, got.slice_mut());
    same(&case, &answer, &built)?;
    same(&case, &expected, &got)?;
    tally.count(match answer {
        0 => "built",
        _ => "build refused",
    });
    Ok(())
}

/// Reads one block, its data into a place; `remainder` stands in the remainder's place before.
pub fn compare_read(
    tested: &impl Blocks,
    k: usize,
    block: &[u8],
    payload: GuardedBuffer,
    remainder: u16,
    tally: &mut Tally,
) -> Result<Read, Difference> {
    let length = payload.slice().len();
    let case = || {
        let block = hex(block);
        format!("read_block: k {k}, {length} bytes, {remainder:x} before, block {block}")
    };
    let lent = (payload, GuardedBuffer::filled(remainder, 1));
    let (mut expected, mut got) = (lent.clone(), lent);
    let answer = read_into(&Reference, k, block, &mut expected);
    let number = read_into(tested, k, block, &mut got);
    same(&case, &(answer, expected), &(number, got.clone()))?;
    let read = decode_read(number, got.1.slice()[0]);
    tally.count(match read {
        Read::Passed(_) => "read passed",
        Read::Failed(1) => READ_FAILED_WITH_1,
        Read::Failed(_) => READ_FAILED_OTHERWISE,
        Read::Refused(_) => "read refused",
    });
    Ok(read)
}

/// The number returned, with the data and the remainder in these places.
fn read_into(
    tested: &impl Blocks,
    k: usize,
    block: &[u8],
    (payload, remainder): &mut (GuardedBuffer, GuardedBuffer<u16>),
) -> u16 {
    let remainder = &mut remainder.slice_mut()[0];
    tested.read_block(k, block, payload.slice_mut(), remainder)
}

#[cfg(test)]
mod tests {
    use super::super::{agreed, assert_different};
    use super::*;
    use crate::interface::encode_read;

    #[test]
    fn every_kind_of_answer_comes() {
        agreed(compare(&Reference, 11, 20_000)).assert_above(500, &KINDS);
    }

    /// A reader that takes a spare bit for a check bit is found.
    #[test]
    fn a_difference_is_reported() {
        struct Spare;
        impl Blocks for Spare {
            fn build_block(&self, k: usize, service: u8, payload: &[u8], block: &mut [u8]) -> u8 {
                Reference.build_block(k, service, payload, block)
            }
            fn read_block(
                &self,
                k: usize,
                block: &[u8],
                payload: &mut [u8],
                remainder: &mut u16,
            ) -> u16 {
                match block.get(k.min(4000) / 8 + 2) {
                    Some(last) if last & 1 == 1 => encode_read(Read::Failed(1), remainder),
                    _ => Reference.read_block(k, block, payload, remainder),
                }
            }
        }
        assert_different(compare(&Spare, 11, 100), "a spare bit");
    }
}
