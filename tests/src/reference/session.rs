//! docs/PROTOCOL.md, the run program ("Examples, on either side"): a session's text in, its periods
//! out.

use super::bits::{pack, unpack, Bits};
use super::block::{block_bits, block_bytes};
use super::order::LONGEST;
use super::receiver::{self, Event, Received, Receiver};
use super::refusal::Refusal;
use super::sender::{self, Sender, Sent};

const HEADING: &str = "period sent read event back\n";
const SPEED: usize = 200;
const LOOP_MS: usize = 0;
/// The bytes of the longest order with its last item filled, at any k: each of them divides 3840.
const STORE_BYTES: usize = LONGEST.next_multiple_of(3840) / 8;

/// Line one: k, L and the order. Numbers too large to hold stand as the largest.
#[derive(Debug, PartialEq, Eq)]
pub struct FirstLine {
    pub k: usize,
    pub length: usize,
    pub order: Vec<u8>,
}

/// Both ends of a session, its order and its store.
struct Session {
    order: Vec<u8>,
    store: Vec<u8>,
    sender: Sender,
    receiver: Receiver,
}

/// One period as it is written.
struct Period {
    sent: Sent,
    reading: bool,
    event: Event,
    return_bit: bool,
}

/// What the run program writes for this standard input.
pub fn run(input: &[u8]) -> Vec<u8> {
    let mut output = String::from(HEADING);
    let mut lines = lines(input);
    if let Some(first) = lines.next().and_then(parse_first_line) {
        if let Err(refusal) = run_session(first, lines, &mut output) {
            output += &format!("refused {refusal}\n");
        }
    }
    output.into_bytes()
}

fn run_session<'a>(
    first: FirstLine,
    lines: impl Iterator<Item = &'a [u8]>,
    output: &mut String,
) -> Result<(), Refusal> {
    let mut session = Session::open(first)?;
    for (number, line) in lines.enumerate() {
        let (turned, damaged) = match line {
            b"t" => (false, false),
            b"f" => (true, false),
            b"d" => (false, true),
            _ => break,
        };
        let period = session.period(turned, damaged)?;
        *output += &period_line(number, &period);
    }
    Ok(())
}

/// The lines of a text; the last one may lack its newline.
fn lines(input: &[u8]) -> impl Iterator<Item = &[u8]> {
    let body = input.strip_suffix(b"\n").unwrap_or(input);
    let any = !input.is_empty();
    body.split(|&byte| byte == b'\n').filter(move |_| any)
}

/// Reads line one: fields parted by one blank, the order may be missing, a blank may trail.
pub fn parse_first_line(line: &[u8]) -> Option<FirstLine> {
    let line = line.strip_suffix(b" ").unwrap_or(line);
    let fields: Vec<&[u8]> = line.split(|&byte| byte == b' ').collect();
    let (k, length, order) = match fields[..] {
        [k, length] => (k, length, None),
        [k, length, order] => (k, length, Some(order)),
        _ => return None,
    };
    Some(FirstLine {
        k: decimal(k)?,
        length: decimal(length)?,
        order: order.map_or(Some(Vec::new()), hexadecimal)?,
    })
}

fn decimal(field: &[u8]) -> Option<usize> {
    if field.is_empty() {
        return None;
    }
    field.iter().try_fold(0usize, |value, &byte| {
        let digit = char::from(byte).to_digit(10)?;
        Some(value.saturating_mul(10).saturating_add(digit as usize))
    })
}

fn hexadecimal(field: &[u8]) -> Option<Vec<u8>> {
    if field.is_empty() || !field.len().is_multiple_of(2) {
        return None;
    }
    let digit = |byte: u8| char::from(byte).to_digit(16);
    field
        .chunks(2)
        .map(|pair| Some((16 * digit(pair[0])? + digit(pair[1])?) as u8))
        .collect()
}

impl Session {
    fn open(first: FirstLine) -> Result<Session, Refusal> {
        let FirstLine { k, length, order } = first;
        let sender = sender::open(k, SPEED, LOOP_MS, length, None, &order)?;
        let receiver = receiver::open(k, None)?;
        let store = vec![0; STORE_BYTES];
        Ok(Session {
            order,
            store,
            sender,
            receiver,
        })
    }

    /// One period: a sending call, and receiving calls until the block's bits are used.
    fn period(&mut self, turned: bool, damaged: bool) -> Result<Period, Refusal> {
        let k = self.sender.k;
        let reading = self.receiver.return_bit != turned;
        let mut block = vec![0; block_bytes(k)];
        let (sender, sent) = self.sender.clone().send(&self.order, reading, &mut block);
        if let Sent::Refused(refusal) = sent {
            return Err(refusal);
        }
        self.sender = sender;
        let mut bits = unpack(&block, 0, block_bits(k));
        bits[0] ^= damaged;
        let event = self.deliver(bits)?;
        Ok(Period {
            sent,
            reading,
            event,
            return_bit: self.receiver.return_bit,
        })
    }

    /// Lends a block's bits until all are used; the last event other than *none*, else *none*. The
    /// machine is always ready.
    fn deliver(&mut self, mut bits: Bits) -> Result<Event, Refusal> {
        let mut last = Event::None;
        while !bits.is_empty() {
            let receiver = self.receiver.clone();
            let line = pack(&bits);
            let (receiver, received) = receiver.receive(&line, bits.len(), true, &mut self.store);
            self.receiver = receiver;
            match received {
                Received::Refused(refusal) => return Err(refusal),
                Received::Reported { event, used } => {
                    bits.drain(..used);
                    if event != Event::None {
                        last = event;
                    }
                }
            }
        }
        Ok(last)
    }
}

fn period_line(number: usize, period: &Period) -> String {
    let reading = u8::from(period.reading);
    let (sent, read_column) = match period.sent {
        Sent::Item {
            item,
            end,
            used,
            cancelled,
        } => {
            let sign = if cancelled { "!" } else { "" };
            let name = if end { "E".into() } else { item.to_string() };
            let read_column = if used {
                reading.to_string()
            } else {
                "-".into()
            };
            (format!("{sign}{name}"), read_column)
        }
        _ => ("S".into(), "-".into()),
    };
    let event = period.event.name();
    let return_bit = u8::from(period.return_bit);
    format!("{number} {sent} {read_column} {event} {return_bit}\n")
}
