//! The noise load: the draws that another program found; spans at every place and with every pattern;
//! chains of periods, in which one call's words are the next one's; each refusal alone and beside each
//! other one, with blocks of every length; and sessions on a line whose noise is the load.

mod refusals;
pub mod sessions;
mod spans;
pub mod words;

use super::block::require_multiples;
use super::lockstep::Lockstep;
use super::{hex, same, Difference, GroupFailure, GuardedBuffer, Tally};
use crate::calls::{NoiseLoads, ReceivingEnd, Reference, SendingEnd};
use crate::damage::ADMITTED_SPAN;
use crate::interface::decode_noise;
use crate::reference::bits::bit_at;
use crate::reference::block::{block_bits, block_bytes, LENGTHS};
use crate::reference::noise::draws::STATED;
use crate::reference::noise::{places, Generator, Load};
use crate::reference::refusal::{Refusal, BLOCK, GENERATOR, SHORT};
use crate::rng::Rng;

/// The names of the answers, by the first draw's low two bits, and of the refusals.
pub const ANSWERS: [&str; 7] = [
    "nothing by 0",
    "nothing by 1",
    "span",
    "reading turned",
    "noise refused 1",
    "noise refused 6",
    "noise refused 13",
];

/// The names of spans at the ends of a block, and with as few ones and as many as a pattern can have.
pub const SPANS: [&str; 4] = [
    "span at the first place",
    "span at the last place",
    "span without ones",
    "span of 16 ones",
];

/// The periods of a chain.
const CHAIN: usize = 250;

/// Runs the whole group, with this many blocks in chains at each k, and this many sessions.
pub fn compare<T: NoiseLoads + SendingEnd + ReceivingEnd>(
    tested: &T,
    seed: u64,
    blocks: usize,
    sessions: usize,
) -> Result<Tally, GroupFailure> {
    let mut group = Group {
        tested,
        ends: Lockstep::new(tested, tested),
        rng: Rng::new(seed),
        tally: Tally::default(),
    };
    group.stated_draws()?;
    group.refusals()?;
    group.spans()?;
    for k in LENGTHS {
        group.chains(k, blocks)?;
    }
    for number in 0..sessions {
        let run = group.session(seed, number);
        run.map_err(|difference| format!("session {number}: {difference}"))?;
    }
    group.tally.require(&ANSWERS)?;
    group.tally.require(&SPANS)?;
    // With each kind of draw.
    require_multiples(&group.tally, 4)?;
    if sessions == 0 {
        return Ok(group.tally);
    }
    group.tally.require(&sessions::OUTCOMES)?;
    group.ends.with_tried(group.tally)
}

/// What a call that is not refused did: its answer, the words after it and the lent block.
pub struct Period {
    pub load: Load,
    pub words: Generator,
    pub block: Vec<u8>,
}

pub type Answer = Result<Period, Refusal>;

/// That a call was refused by this number, or was not refused.
fn expect(
    answer: &Answer,
    case: &dyn Fn() -> String,
    refusal: Option<Refusal>,
) -> Result<(), Difference> {
    same(case, &refusal, &answer.as_ref().err().copied())
}

/// What a call did that the rules accept.
fn done(answer: Answer, case: &dyn Fn() -> String) -> Result<Period, Difference> {
    answer.map_err(|number| format!("{}: refused {number}", case()))
}

struct Group<'a, T> {
    tested: &'a T,
    /// Those of the sessions.
    ends: Lockstep<'a, T, T>,
    rng: Rng,
    tally: Tally,
}

impl<T: NoiseLoads> Group<'_, T> {
    /// The words after a call say which number was drawn last: their sum is one of the stated draws,
    /// after a span the next but one.
    fn stated_draws(&mut self) -> Result<(), Difference> {
        for (words, draws) in STATED {
            for k in LENGTHS {
                let mut generator = words;
                let mut left = &draws[..];
                while let [first, ..] = left {
                    let spent = if first % 4 == 2 { 2 } else { 1 };
                    let Some((drawn, further)) = left.split_at_checked(spent) else {
                        break;
                    };
                    let case = || format!("stated draws: k {k}, from {words:?}");
                    generator = done(self.noise(k, generator, block_bytes(k))?, &case)?.words;
                    let sum = generator.first.wrapping_add(generator.second);
                    same(&case, &drawn.last(), &Some(&sum))?;
                    left = further;
                }
            }
        }
        Ok(())
    }

    /// So many blocks, the words of one call being the next one's, from words at the borders first.
    fn chains(&mut self, k: usize, blocks: usize) -> Result<(), Difference> {
        let mut starts = words::at_borders();
        let mut left = blocks;
        while left > 0 {
            let start = starts.next();
            let mut generator = start.unwrap_or_else(|| words::any(&mut self.rng));
            for _ in 0..left.min(CHAIN) {
                let behind = self.rng.below(4);
                let answer = self.noise(k, generator, block_bytes(k) + behind)?;
                let case = || format!("chains: k {k}, {generator:?}");
                generator = done(answer, &case)?.words;
            }
            left -= left.min(CHAIN);
        }
        Ok(())
    }

    /// The noise of one period, on a block of so many random bytes.
    fn noise(&mut self, k: usize, words: Generator, bytes: usize) -> Result<Answer, Difference> {
        let block = GuardedBuffer::random(&mut self.rng, bytes);
        compare_noise(self.tested, k, words, block, &mut self.tally)
    }
}

/// What a call is lent: each word and the block between guards.
#[derive(Clone, Debug, PartialEq, Eq)]
struct Lent {
    first: GuardedBuffer<u32>,
    second: GuardedBuffer<u32>,
    block: GuardedBuffer,
}

impl Lent {
    fn new(words: Generator, block: GuardedBuffer) -> Lent {
        Lent {
            first: GuardedBuffer::filled(words.first, 1),
            second: GuardedBuffer::filled(words.second, 1),
            block,
        }
    }

    fn words(&self) -> Generator {
        Generator {
            first: self.first.slice()[0],
            second: self.second.slice()[0],
        }
    }

    /// The call on what is lent; its answer.
    fn load(&mut self, tested: &dyn NoiseLoads, k: usize) -> u32 {
        let first = &mut self.first.slice_mut()[0];
        let second = &mut self.second.slice_mut()[0];
        tested.noise(k, first, second, self.block.slice_mut())
    }
}

/// The noise of one period, on the block in this place.
pub fn compare_noise(
    tested: &dyn NoiseLoads,
    k: usize,
    words: Generator,
    block: GuardedBuffer,
    tally: &mut Tally,
) -> Result<Answer, Difference> {
    let lent = Lent::new(words, block);
    let case = || {
        let block = hex(lent.block.slice());
        format!("noise: k {k}, {words:x?}, block {block}")
    };
    let (mut expected, mut got) = (lent.clone(), lent.clone());
    let answer = expected.load(&Reference, k);
    let word = got.load(tested, k);
    same(&case, &(answer, &expected), &(word, &got))?;
    match decode_noise(word) {
        Err(number) => {
            same(&case, &lent, &got)?;
            tally.count(refusal_name(number));
            Ok(Err(number))
        }
        Ok(load) => {
            judge_damage(&case, k, load, [lent.block.slice(), got.block.slice()])?;
            count_draws(k, words, tally);
            Ok(Ok(Period {
                load,
                words: got.words(),
                block: got.block.slice().to_vec(),
            }))
        }
    }
}

/// As many bits of the block differ as the load says, all of them among its n bits and within 16
/// adjacent places; so no spare bit does, and none behind the block.
fn judge_damage(
    case: &dyn Fn() -> String,
    k: usize,
    load: Load,
    [before, after]: [&[u8]; 2],
) -> Result<(), Difference> {
    let bytes = (0..before.len()).filter(|&byte| before[byte] != after[byte]);
    let places = bytes.flat_map(|byte| 8 * byte..8 * byte + 8);
    let inverted = places.filter(|&place| bit_at(before, place) != bit_at(after, place));
    let inverted: Vec<usize> = inverted.collect();
    same(case, &load.inverted, &inverted.len())?;
    if let (Some(first), Some(last)) = (inverted.first(), inverted.last()) {
        let within = last - first < ADMITTED_SPAN && *last < block_bits(k);
        same(case, &true, &within)?;
    }
    Ok(())
}

/// Counts what a call draws from these words, and where a span lies.
fn count_draws(k: usize, mut words: Generator, tally: &mut Tally) {
    let kind = words.draw() % 4;
    tally.count(ANSWERS[kind as usize]);
    if kind != 2 {
        return;
    }
    let drawn = words.draw() as usize;
    let [at_first, at_last, without, of_sixteen] = SPANS;
    match drawn >> 16 {
        upper if upper % places(k) == 0 => tally.count(at_first),
        upper if upper % places(k) == places(k) - 1 => tally.count(at_last),
        _ => {}
    }
    match drawn & 0xFFFF {
        0 => tally.count(without),
        0xFFFF => tally.count(of_sixteen),
        _ => {}
    }
}

fn refusal_name(number: Refusal) -> &'static str {
    match number {
        BLOCK => "noise refused 1",
        SHORT => "noise refused 6",
        GENERATOR => "noise refused 13",
        _ => "noise refused otherwise",
    }
}

#[cfg(test)]
mod tests {
    use super::super::agreed;
    use super::super::lockstep::TRIED;
    use super::*;

    #[test]
    fn every_kind_of_answer_and_of_span_comes() {
        let tally = agreed(compare(&Reference, 18, 5_000, 600));
        tally.assert_above(200, &ANSWERS);
        tally.assert_above(200, &SPANS);
        tally.assert_above(20, &sessions::OUTCOMES);
        tally.assert_above(0, &TRIED);
    }
}
