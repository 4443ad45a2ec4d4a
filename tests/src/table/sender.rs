//! The table-driven sibling of the sending call: an item is built where it goes out.

use super::{are_spoiled, build_block, is_length};
use super::{END, FIRST_SIZE, LETTERS, LONGEST, MARKS, SHORT, SPOILED, VERSION};
use crate::reference::sender::{Next, Sender, Sent};

const GIVE_UP: usize = 64;
const REST: u8 = 8;
/// The data bytes of the longest block.
const MOST_PAYLOAD_BYTES: usize = 480;

/// Sends one block; refusals in the order 7, 8, 6.
#[inline(never)]
pub fn send(mut sender: Sender, order: &[u8], reading: bool, block: &mut [u8]) -> (Sender, Sent) {
    if let Err(refusal) = judge(&sender, order, block) {
        return (sender, Sent::Refused(refusal));
    }
    let items = sender.length.div_ceil(sender.k);
    let (item, used) = match sender.next {
        Next::Synchronising => {
            write_synchronising(&mut block[..sender.k / 8 + 3]);
            sender.next = Next::Older;
            return (sender, Sent::Synchronising);
        }
        Next::Older => (sender.newer - 1, false),
        Next::Newer => (sender.newer, true),
    };
    write_item(&sender, items, item, order, block);
    let cancelled = used && reading;
    if cancelled {
        block[sender.k / 8 + 2] ^= 0x10;
        count_cancel(&mut sender);
    } else if used {
        move_pair_up(&mut sender, items);
    } else {
        sender.next = Next::Newer;
    }
    let end = item >= items;
    let sent = Sent::Item {
        item,
        end,
        used,
        cancelled,
    };
    (sender, sent)
}

fn judge(sender: &Sender, order: &[u8], block: &[u8]) -> Result<(), u8> {
    let (k, length) = (sender.k, sender.length);
    if !is_length(k) || !(1..=LONGEST).contains(&length) || are_spoiled(sender.marks) {
        return Err(SPOILED);
    }
    let last = length.div_ceil(k) + 1;
    if !(1..=last).contains(&sender.newer) || sender.cancel_run > GIVE_UP {
        return Err(SPOILED);
    }
    if sender.finished || sender.cancel_run == GIVE_UP {
        return Err(REST);
    }
    if order.len() < length.div_ceil(8) || block.len() < k / 8 + 3 {
        return Err(SHORT);
    }
    Ok(())
}

#[inline]
fn move_pair_up(sender: &mut Sender, items: usize) {
    sender.cancel_run = 0;
    sender.opening = false;
    if sender.newer > items {
        sender.finished = true;
    } else {
        sender.newer += 1;
    }
}

#[inline]
fn count_cancel(sender: &mut Sender) {
    sender.cancel_run += 1;
    sender.next = match sender.opening || sender.cancel_run >= 4 {
        true => Next::Synchronising,
        false => Next::Older,
    };
}

fn write_synchronising(block: &mut [u8]) {
    let last = block.len() - 3;
    block.fill(0xAA);
    block[0] = 0x5A;
    block[last..].copy_from_slice(&[0xA5, 0x0A, 0x50]);
}

/// A whole item comes straight from the order; the last one and an end block are made up first.
#[inline]
fn write_item(sender: &Sender, items: usize, item: usize, order: &[u8], block: &mut [u8]) {
    let (k, length) = (sender.k, sender.length);
    let bytes = k / 8;
    if (item + 1) * k <= length {
        let payload = &order[item * bytes..(item + 1) * bytes];
        write(k, data_service(sender, item), payload, block);
        return;
    }
    let mut payload = [0; MOST_PAYLOAD_BYTES];
    if item >= items {
        payload[0] = VERSION;
        payload[1..5].copy_from_slice(&(length as u32).to_be_bytes());
        write(k, END, &payload, block);
        return;
    }
    let rest = &order[item * bytes..length.div_ceil(8)];
    payload[..rest.len()].copy_from_slice(rest);
    if !length.is_multiple_of(8) {
        payload[rest.len() - 1] &= 0xFF << (8 - length % 8);
    }
    write(k, data_service(sender, item), &payload, block);
}

/// With marks the letters begin one item later.
#[inline]
fn data_service(sender: &Sender, item: usize) -> u8 {
    match (sender.marks.in_use, item) {
        (true, 0) => MARKS[sender.marks.size - FIRST_SIZE],
        (marks, _) => LETTERS[(item + 2 * usize::from(marks)) % 3],
    }
}

#[inline]
fn write(k: usize, service: u8, payload: &[u8], block: &mut [u8]) {
    let built = build_block(k, service, payload, block);
    debug_assert_eq!(built, Ok(()));
}
