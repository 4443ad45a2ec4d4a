//! The linked library's interface a second time: the ends' states in lent bytes, answers as
//! numbers. The layouts and the numbers are those that `include/order_line.h` gives.

use crate::reference::block::Read;
use crate::reference::marks::Marks;
use crate::reference::noise::Load;
use crate::reference::receiver::{Alarm, Event, Received, Receiver, HELD_BYTES};
use crate::reference::refusal::{Refusal, SPOILED};
use crate::reference::sender::{Next, Sender, Sent};

/// Both layouts begin with three numbers of four bytes, the lowest first, and four bytes.
pub const HEAD_BYTES: usize = 16;
/// Both end with whether marks are in use, and the code size.
pub const MARKS_BYTES: usize = 2;
pub const SENDER_BYTES: usize = HEAD_BYTES + MARKS_BYTES;
pub const RECEIVER_BYTES: usize = HEAD_BYTES + HELD_BYTES + MARKS_BYTES;

/// 5.1.1.
pub const VERSION: u32 = 0x05_01_01;

/// What `sender_rest` answers besides 7.
pub const GOING_ON: u8 = 80;
pub const FINISHED: u8 = 81;
pub const GAVE_UP: u8 = 82;

/// What `return_bit` answers besides 7.
pub const RETURN_0: u8 = 96;
pub const RETURN_1: u8 = 97;

/// The events' numbers; those of the refusals stay below them.
pub const EVENT_NONE: u8 = 64;
pub const EVENT_SYNC: u8 = 65;
pub const EVENT_BAD: u8 = 66;
pub const EVENT_ACCEPTED: u8 = 67;
pub const EVENT_PREVIOUS: u8 = 68;
pub const EVENT_SEQUENCE_ALARM: u8 = 69;
pub const EVENT_LENGTH_ALARM: u8 = 70;
pub const EVENT_ENDED: u8 = 71;
pub const EVENT_WAIT: u8 = 72;

/// Answers of `read_block`; a passed one has its service bits added.
const PASSED: u16 = 0x100;
const FAILED: u16 = 0x200;

/// The flags of a sending call's answer; an item's number stands above them.
const SENT: u32 = 0x100;
const SENT_ITEM: u32 = 0x200;
const SENT_END: u32 = 0x400;
const SENT_USED: u32 = 0x800;
const SENT_CANCELLED: u32 = 0x1000;
const NUMBER_SHIFT: u32 = 16;

/// What the noise load answers; the number of bits inverted stands above them.
const NOISE: u32 = 0x100;
const NOISE_TURNED: u32 = 0x200;
const INVERTED_SHIFT: u32 = 16;

const NEXT: [Next; 3] = [Next::Synchronising, Next::Older, Next::Newer];

/// The three numbers at the beginning of a layout.
fn load_words(bytes: &[u8]) -> [usize; 3] {
    [0, 4, 8].map(|at| {
        let mut four = [0; 4];
        four.copy_from_slice(&bytes[at..at + 4]);
        u32::from_le_bytes(four) as usize
    })
}

/// Writes the lowest four bytes of a number.
pub fn store_word(bytes: &mut [u8], at: usize, number: usize) {
    bytes[at..at + 4].copy_from_slice(&(number as u32).to_le_bytes());
}

fn store_words(bytes: &mut [u8], numbers: [usize; 3]) {
    for (at, number) in [0, 4, 8].into_iter().zip(numbers) {
        store_word(bytes, at, number);
    }
}

fn load_flag(byte: u8) -> Option<bool> {
    match byte {
        0 => Some(false),
        1 => Some(true),
        _ => None,
    }
}

fn load_marks(bytes: &[u8]) -> Option<Marks> {
    Some(Marks {
        in_use: load_flag(bytes[0])?,
        size: usize::from(bytes[1]),
    })
}

fn store_marks(marks: Marks, bytes: &mut [u8]) {
    bytes[0] = u8::from(marks.in_use);
    bytes[1] = marks.size as u8;
}

/// k, L, newer; cancel run, opening, next, finished; the marks. `None` if the bytes hold no sender.
pub fn load_sender(bytes: &[u8]) -> Option<Sender> {
    let bytes = bytes.get(..SENDER_BYTES)?;
    let [k, length, newer] = load_words(bytes);
    Some(Sender {
        k,
        length,
        newer,
        cancel_run: usize::from(bytes[12]),
        opening: load_flag(bytes[13])?,
        next: *NEXT.get(usize::from(bytes[14]))?,
        finished: load_flag(bytes[15])?,
        marks: load_marks(&bytes[HEAD_BYTES..])?,
    })
}

pub fn store_sender(sender: &Sender, bytes: &mut [u8]) {
    store_words(bytes, [sender.k, sender.length, sender.newer]);
    bytes[12] = sender.cancel_run as u8;
    bytes[13] = u8::from(sender.opening);
    bytes[14] = match sender.next {
        Next::Synchronising => 0,
        Next::Older => 1,
        Next::Newer => 2,
    };
    bytes[15] = u8::from(sender.finished);
    store_marks(sender.marks, &mut bytes[HEAD_BYTES..SENDER_BYTES]);
}

/// k, held, taken; bad row, return bit, end taken, phase; the array; the marks. `None` if the bytes
/// hold no receiver.
pub fn load_receiver(bytes: &[u8]) -> Option<Receiver> {
    let bytes = bytes.get(..RECEIVER_BYTES)?;
    let (search, alarm) = match bytes[15] {
        0 => (true, None),
        1 => (false, None),
        2 => (false, Some(Alarm::Sequence)),
        3 => (false, Some(Alarm::Length)),
        _ => return None,
    };
    let (held_bytes, marks) = bytes[HEAD_BYTES..].split_at(HELD_BYTES);
    let mut array = [0; HELD_BYTES];
    array.copy_from_slice(held_bytes);
    let [k, held, taken] = load_words(bytes);
    Some(Receiver {
        k,
        held,
        taken,
        bad_row: usize::from(bytes[12]),
        return_bit: load_flag(bytes[13])?,
        end_taken: load_flag(bytes[14])?,
        search,
        alarm,
        array,
        marks: load_marks(marks)?,
    })
}

pub fn store_receiver(receiver: &Receiver, bytes: &mut [u8]) {
    store_words(bytes, [receiver.k, receiver.held, receiver.taken]);
    bytes[12] = receiver.bad_row as u8;
    bytes[13] = u8::from(receiver.return_bit);
    bytes[14] = u8::from(receiver.end_taken);
    bytes[15] = match (receiver.alarm, receiver.search) {
        (None, true) => 0,
        (None, false) => 1,
        (Some(Alarm::Sequence), _) => 2,
        (Some(Alarm::Length), _) => 3,
    };
    let (array, marks) = bytes[HEAD_BYTES..RECEIVER_BYTES].split_at_mut(HELD_BYTES);
    array.copy_from_slice(&receiver.array);
    store_marks(receiver.marks, marks);
}

/// The answer of `read_block`; the remainder of a block that fails is written beside it.
#[inline]
pub fn encode_read(read: Read, remainder: &mut u16) -> u16 {
    match read {
        Read::Refused(number) => u16::from(number),
        Read::Passed(service) => PASSED + u16::from(service),
        Read::Failed(found) => {
            *remainder = found;
            FAILED
        }
    }
}

/// What an answer of `read_block` says, with the number that then stands in the remainder's place.
#[inline]
pub fn decode_read(number: u16, remainder: u16) -> Read {
    match number {
        ..PASSED => Read::Refused(number as Refusal),
        PASSED..FAILED => Read::Passed((number - PASSED) as u8),
        FAILED => Read::Failed(remainder),
        _ => panic!("{number:x} is no answer of read_block"),
    }
}

/// The answer of a sending call.
pub fn encode_sent(sent: Sent) -> u32 {
    let flag = |set, value| if set { value } else { 0 };
    match sent {
        Sent::Refused(number) => u32::from(number),
        Sent::Synchronising => SENT,
        Sent::Item {
            item,
            end,
            used,
            cancelled,
        } => {
            let flags =
                flag(end, SENT_END) | flag(used, SENT_USED) | flag(cancelled, SENT_CANCELLED);
            SENT | SENT_ITEM | flags | (item as u32) << NUMBER_SHIFT
        }
    }
}

/// What a sending call's answer says.
pub fn decode_sent(word: u32) -> Sent {
    if word & SENT == 0 {
        return Sent::Refused(word as Refusal);
    }
    if word & SENT_ITEM == 0 {
        return Sent::Synchronising;
    }
    Sent::Item {
        item: (word >> NUMBER_SHIFT) as usize,
        end: word & SENT_END != 0,
        used: word & SENT_USED != 0,
        cancelled: word & SENT_CANCELLED != 0,
    }
}

/// The answer of the noise load.
pub fn encode_noise(loaded: Result<Load, Refusal>) -> u32 {
    match loaded {
        Err(number) => u32::from(number),
        Ok(Load { inverted, turned }) => {
            let turned = if turned { NOISE_TURNED } else { 0 };
            NOISE | turned | (inverted as u32) << INVERTED_SHIFT
        }
    }
}

/// What an answer of the noise load says.
pub fn decode_noise(word: u32) -> Result<Load, Refusal> {
    match word & NOISE {
        0 => Err(word as Refusal),
        _ => Ok(Load {
            inverted: (word >> INVERTED_SHIFT) as usize,
            turned: word & NOISE_TURNED != 0,
        }),
    }
}

/// An event's number; the L of *ended* and the remainder of *bad* are written beside it.
fn event_number(event: Event) -> u8 {
    match event {
        Event::None => EVENT_NONE,
        Event::Sync => EVENT_SYNC,
        Event::Bad(_) => EVENT_BAD,
        Event::Accepted => EVENT_ACCEPTED,
        Event::Previous => EVENT_PREVIOUS,
        Event::SequenceAlarm => EVENT_SEQUENCE_ALARM,
        Event::LengthAlarm => EVENT_LENGTH_ALARM,
        Event::Ended(_) => EVENT_ENDED,
        Event::Wait => EVENT_WAIT,
    }
}

/// Whether a receiving call's answer is an event's number, not a refusal's.
#[inline]
pub fn is_event(number: u8) -> bool {
    number >= EVENT_NONE
}

/// Where a receiving call writes, beside its answer: the number of bits used, unless it is
/// refused, the L of an order that ended, and the remainder of a *bad* block.
#[derive(Clone, Copy, Debug, Default, PartialEq, Eq)]
pub struct Counts {
    pub used: usize,
    pub length: usize,
    pub remainder: u16,
}

/// What a receiving call's answer and counts say.
pub fn decode_received(number: u8, counts: Counts) -> Received {
    let event = match number {
        EVENT_NONE => Event::None,
        EVENT_SYNC => Event::Sync,
        EVENT_BAD => Event::Bad(counts.remainder),
        EVENT_ACCEPTED => Event::Accepted,
        EVENT_PREVIOUS => Event::Previous,
        EVENT_SEQUENCE_ALARM => Event::SequenceAlarm,
        EVENT_LENGTH_ALARM => Event::LengthAlarm,
        EVENT_ENDED => Event::Ended(counts.length),
        EVENT_WAIT => Event::Wait,
        refusal => return Received::Refused(refusal),
    };
    let used = counts.used;
    Received::Reported { event, used }
}

/// A sending call on the bytes of a state.
pub fn send(state: &mut [u8], step: impl FnOnce(Sender) -> (Sender, Sent)) -> u32 {
    let Some(sender) = load_sender(state) else {
        return u32::from(SPOILED);
    };
    let (sender, sent) = step(sender);
    if !matches!(sent, Sent::Refused(_)) {
        store_sender(&sender, state);
    }
    encode_sent(sent)
}

/// A receiving call on the bytes of a state.
pub fn receive(
    state: &mut [u8],
    counts: &mut Counts,
    step: impl FnOnce(Receiver) -> (Receiver, Received),
) -> u8 {
    let Some(receiver) = load_receiver(state) else {
        return SPOILED;
    };
    let (receiver, received) = step(receiver);
    let (event, used) = match received {
        Received::Refused(number) => return number,
        Received::Reported { event, used } => (event, used),
    };
    store_receiver(&receiver, state);
    counts.used = used;
    match event {
        Event::Ended(length) => counts.length = length,
        Event::Bad(remainder) => counts.remainder = remainder,
        _ => {}
    }
    event_number(event)
}

#[cfg(test)]
mod tests {
    use super::*;
    use crate::reference::order::MOST_ITEMS;
    use crate::rng::Rng;

    #[test]
    fn states_that_bytes_hold_are_stored_as_they_were() {
        let mut rng = Rng::new(12);
        for _ in 0..2_000 {
            let mut bytes = rng.bytes(RECEIVER_BYTES);
            for byte in &mut bytes[13..HEAD_BYTES] {
                *byte = rng.below(5) as u8;
            }
            let marks_in_use = rng.below(3) as u8;
            for place in [SENDER_BYTES, RECEIVER_BYTES] {
                bytes[place - MARKS_BYTES] = marks_in_use;
            }
            let mut stored = vec![0xEE; RECEIVER_BYTES];
            let loaded = load_sender(&bytes).map(|sender| store_sender(&sender, &mut stored));
            let in_range = bytes[13] < 2 && bytes[14] < 3 && bytes[15] < 2 && marks_in_use < 2;
            assert_eq!(loaded.is_some(), in_range);
            assert!(loaded.is_none() || stored[..SENDER_BYTES] == bytes[..SENDER_BYTES]);
            let loaded =
                load_receiver(&bytes).map(|receiver| store_receiver(&receiver, &mut stored));
            let in_range = bytes[13] < 2 && bytes[14] < 2 && bytes[15] < 4 && marks_in_use < 2;
            assert_eq!(loaded.is_some(), in_range);
            assert!(loaded.is_none() || stored == bytes);
            assert_eq!(load_sender(&bytes[..SENDER_BYTES - 1]), None);
            assert_eq!(load_receiver(&bytes[..RECEIVER_BYTES - 1]), None);
        }
    }

    #[test]
    fn answers_are_decoded_as_they_were_encoded() {
        let item = |item, flags: usize| Sent::Item {
            item,
            end: flags & 1 == 1,
            used: flags & 2 == 2,
            cancelled: flags & 4 == 4,
        };
        let items = (0..8).flat_map(|flags| [item(0, flags), item(MOST_ITEMS + 1, flags)]);
        for answer in items.chain([Sent::Synchronising, Sent::Refused(8)]) {
            assert_eq!(decode_sent(encode_sent(answer)), answer);
        }
        let load = |inverted| [false, true].map(|turned| Ok(Load { inverted, turned }));
        for answer in (0..=16).flat_map(load).chain([Err(1), Err(6), Err(13)]) {
            assert_eq!(decode_noise(encode_noise(answer)), answer);
        }
        for number in EVENT_NONE..=EVENT_WAIT {
            let counts = Counts {
                used: 5,
                length: 9,
                remainder: 7,
            };
            let Received::Reported { event, used: 5 } = decode_received(number, counts) else {
                panic!("{number}");
            };
            assert_eq!(event_number(event), number);
        }
    }
}
