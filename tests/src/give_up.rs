//! How many block periods pass until a sender gives up, counted by sending: if every reading is 1
//! from some block on, and if the machine is not ready from some block on.

use crate::calls::{Line, Opening, ReceivingEnd, SendingEnd};
use crate::interface::{decode_received, decode_sent, Counts};
use crate::interface::{RECEIVER_BYTES, RETURN_1, SENDER_BYTES};
use crate::reference::block::{block_bits, block_bytes};
use crate::reference::loop_time::longest_loop;
use crate::reference::receiver::{Event, Received};
use crate::reference::refusal::REST;
use crate::reference::sender::Sent;

/// Data items of the order that is sent.
pub const ITEMS: usize = 5;

/// Periods from opening on, if every reading is 1.
pub fn from_opening(tested: &impl SendingEnd, k: usize) -> usize {
    periods(tested, k, 0)
}

/// The most periods from a cancelled block on, that one included, if every reading was 0 before
/// and is 1 from there on, whichever item it is.
pub fn in_mid_session(tested: &impl SendingEnd, k: usize) -> usize {
    let counts = (1..=ITEMS).map(|confirmed| periods(tested, k, confirmed));
    counts.max().expect("more than one item")
}

/// Block periods in seconds; `None` where the loop table has no entry.
pub fn seconds(periods: usize, k: usize, speed: usize) -> Option<f64> {
    longest_loop(k, speed)?;
    Some((periods * block_bits(k)) as f64 / speed as f64)
}

/// An order, and the state of a sender that was opened with it.
fn open(tested: &impl SendingEnd, k: usize) -> (Vec<u8>, [u8; SENDER_BYTES]) {
    let order = vec![0xA5; ITEMS * k / 8];
    let mut state = [0; SENDER_BYTES];
    let opening = Opening {
        k,
        speed: 200,
        loop_ms: 0,
        length: 8 * order.len(),
        code_size: None,
    };
    assert_eq!(tested.open_sender(opening, &order, &mut state), 0);
    (order, state)
}

/// The periods behind so many used readings of 0.
fn periods(tested: &impl SendingEnd, k: usize, confirmed: usize) -> usize {
    let (order, mut state) = open(tested, k);
    let mut block = vec![0; block_bytes(k)];
    let mut zeros = 0;
    let mut periods = 0;
    loop {
        let reading = zeros == confirmed;
        let word = tested.send(&mut state, &order, reading, &mut block);
        match decode_sent(word) {
            Sent::Refused(_) => return periods,
            Sent::Item { used: true, .. } if !reading => zeros += 1,
            _ => {}
        }
        periods += usize::from(reading);
    }
}

/// Block periods until the call that is refused, since the sender gave up.
#[derive(Debug, PartialEq, Eq)]
pub struct BusyPeriods {
    /// From the first block that waits on, that one included.
    pub from_wait: usize,
    /// From the first cancelled block on, that one included.
    pub from_cancel: usize,
}

/// Over an undisturbed line, to a machine that takes so many items and is not ready from then on.
/// No alarm comes, and nothing more is stored.
pub fn on_a_busy_machine<T: SendingEnd + ReceivingEnd>(
    tested: &T,
    k: usize,
    taken: usize,
) -> BusyPeriods {
    let (order, mut sender) = open(tested, k);
    let mut receiver = [0; RECEIVER_BYTES];
    assert_eq!(tested.open_receiver(k, None, &mut receiver), 0);
    let mut store = vec![0; order.len()];
    let mut block = vec![0; block_bytes(k)];
    let mut course = Vec::new();
    loop {
        let reading = tested.return_bit(&receiver) == RETURN_1;
        let sent = decode_sent(tested.send(&mut sender, &order, reading, &mut block));
        if sent == Sent::Refused(REST) {
            break;
        }
        let line = Line {
            bytes: &block,
            bits: block_bits(k),
        };
        let ready = course.len() <= taken;
        let mut counts = Counts::default();
        let number = tested.receive(&mut receiver, line, ready, &mut store, &mut counts);
        course.push((sent, decode_received(number, counts)));
    }
    let stored = taken * k / 8;
    assert!(store[..stored] == order[..stored] && store[stored..].iter().all(|&byte| byte == 0));
    busy_periods(&course)
}

/// By what was sent and received in each period.
fn busy_periods(course: &[(Sent, Received)]) -> BusyPeriods {
    let came = |event| move |period: &(Sent, Received)| is_event(period.1, event);
    let first_wait = course.iter().position(came(Event::Wait));
    let first_cancel = course.iter().position(|period| period.0.is_cancelled());
    for alarm in [Event::SequenceAlarm, Event::LengthAlarm] {
        assert!(!course.iter().any(came(alarm)), "{alarm:?}");
    }
    BusyPeriods {
        from_wait: course.len() - first_wait.expect("a block that waits"),
        from_cancel: course.len() - first_cancel.expect("a cancelled block"),
    }
}

fn is_event(received: Received, sought: Event) -> bool {
    matches!(received, Received::Reported { event, .. } if event == sought)
}

#[cfg(test)]
mod ready_again;

#[cfg(test)]
mod tests {
    use super::*;
    use crate::calls::Reference;
    use crate::reference::block::LENGTHS;
    use crate::table::TableDriven;

    /// 64 times three blocks; in mid-session the first four cancels come without synchronising,
    /// and the first without a repeat before it.
    #[test]
    fn from_opening_192_and_in_mid_session_187() {
        for k in LENGTHS {
            assert_eq!(from_opening(&Reference, k), 3 * 64);
            assert_eq!(in_mid_session(&Reference, k), 1 + 2 * 3 + 3 * 60);
            assert_eq!(from_opening(&TableDriven, k), 3 * 64);
            assert_eq!(in_mid_session(&TableDriven, k), 1 + 2 * 3 + 3 * 60);
        }
    }

    /// The first cancelled block comes behind the first that waits. While opening lasts, a
    /// synchronising block and the older item are before each further one.
    #[test]
    fn on_a_busy_machine_191_from_item_0_on_and_188_from_another_on() {
        let until_refused = |from_cancel| BusyPeriods {
            from_wait: from_cancel + 1,
            from_cancel,
        };
        for k in LENGTHS {
            let never_ready = until_refused(1 + 3 * 63);
            assert_eq!(on_a_busy_machine(&Reference, k, 0), never_ready);
            assert_eq!(on_a_busy_machine(&TableDriven, k, 0), never_ready);
            for taken in 1..=ITEMS {
                let busy = until_refused(1 + 2 * 3 + 3 * 60);
                assert_eq!(on_a_busy_machine(&Reference, k, taken), busy);
                assert_eq!(on_a_busy_machine(&TableDriven, k, taken), busy);
            }
        }
    }

    #[test]
    fn an_hour_at_the_longest_block_and_the_lowest_speed() {
        assert_eq!(seconds(192, 240, 200), Some(249.6));
        assert_eq!(seconds(192, 3840, 200), Some(3705.6));
        assert_eq!(seconds(192, 240, 3600), None);
    }
}
