//! The calls that every implementation offers, so that one comparison serves each of them.
//!
//! They are as the linked library has them: a state stands in lent bytes, and an answer is a number.

use crate::interface::{self, load_receiver, load_sender, store_receiver, store_sender, Counts};
use crate::interface::{FINISHED, GAVE_UP, GOING_ON, RECEIVER_BYTES, SENDER_BYTES};
use crate::interface::{RETURN_0, RETURN_1};
use crate::reference::block;
use crate::reference::loop_time;
use crate::reference::noise::Generator;
use crate::reference::receiver;
use crate::reference::refusal::{Refusal, SHORT, SPOILED};
use crate::reference::sender;
use crate::reference::session;
use crate::reference::tint;

/// "The block".
pub trait Blocks {
    /// 0 or the refusal's number.
    fn build_block(&self, k: usize, service: u8, payload: &[u8], block: &mut [u8]) -> u8;

    /// Its answer: the service bits, that the check fails, or the refusal's number. The remainder is
    /// written beside it if the check fails.
    fn read_block(&self, k: usize, block: &[u8], payload: &mut [u8], remainder: &mut u16) -> u16;
}

/// "Loop time": 0 or the refusal's number.
pub trait LoopTimes {
    fn loop_time(&self, k: usize, speed: u32, loop_ms: u32) -> u8;
}

/// What opening a sender is given besides the slices.
#[derive(Clone, Copy, Debug)]
pub struct Opening {
    pub k: usize,
    pub speed: u32,
    pub loop_ms: u32,
    pub length: usize,
    /// With a code size the session uses marks.
    pub code_size: Option<usize>,
}

/// "Sending".
pub trait SendingEnd {
    /// 0 or the refusal's number.
    fn open_sender(&self, opening: Opening, order: &[u8], state: &mut [u8]) -> u8;

    /// The answer's word, or the refusal's number.
    fn send(&self, state: &mut [u8], order: &[u8], reading: bool, block: &mut [u8]) -> u32;

    /// Whether the sender goes on, is finished or gave up, or the refusal's number.
    fn sender_rest(&self, state: &[u8]) -> u8;
}

/// What a receiving call is lent of the line.
#[derive(Clone, Copy)]
pub struct Line<'a> {
    pub bytes: &'a [u8],
    pub bits: usize,
}

/// "Receiving".
pub trait ReceivingEnd {
    /// 0 or the refusal's number. With a code size the session uses marks.
    fn open_receiver(&self, k: usize, code_size: Option<usize>, state: &mut [u8]) -> u8;

    /// The event's number or the refusal's. `ready` says whether the machine can take a block.
    fn receive(
        &self,
        state: &mut [u8],
        line: Line,
        ready: bool,
        store: &mut [u8],
        counts: &mut Counts,
    ) -> u8;

    /// The return bit's number, or the refusal's.
    fn return_bit(&self, state: &[u8]) -> u8;
}

/// "Tint orders": the doses' numbers in turn, canister and pump steps.
pub trait Tints {
    /// 0 or the refusal's number. The number of bytes written is written beside it.
    fn write_tint(&self, doses: &[u16], count: usize, order: &mut [u8], bytes: &mut usize) -> u8;

    /// 0 or the refusal's number. The number of doses is written beside it.
    fn read_tint(&self, order: &[u8], doses: &mut [u16], count: &mut usize) -> u8;
}

/// "The noise load": the generator's two words, and the block of one period.
pub trait NoiseLoads {
    /// The answer's word, or the refusal's number.
    fn noise(&self, k: usize, first: &mut u32, second: &mut u32, block: &mut [u8]) -> u32;
}

/// The run program: standard input to standard output.
pub trait RunProgram {
    fn run(&self, input: &[u8]) -> Vec<u8>;
}

/// The second implementation.
pub struct Reference;

impl Blocks for Reference {
    fn build_block(&self, k: usize, service: u8, payload: &[u8], block: &mut [u8]) -> u8 {
        let built = block::build_block(k, service, payload, block);
        built.err().unwrap_or(0)
    }

    fn read_block(&self, k: usize, block: &[u8], payload: &mut [u8], remainder: &mut u16) -> u16 {
        interface::encode_read(block::read_block(k, block, payload), remainder)
    }
}

impl LoopTimes for Reference {
    fn loop_time(&self, k: usize, speed: u32, loop_ms: u32) -> u8 {
        let tested = loop_time::test_loop(k, speed as usize, loop_ms as usize);
        tested.err().unwrap_or(0)
    }
}

impl SendingEnd for Reference {
    fn open_sender(&self, opening: Opening, order: &[u8], state: &mut [u8]) -> u8 {
        let Opening {
            k,
            speed,
            loop_ms,
            length,
            code_size,
        } = opening;
        let opened = sender::open(
            k,
            speed as usize,
            loop_ms as usize,
            length,
            code_size,
            order,
        );
        match opened {
            Err(refusal) => refusal,
            Ok(_) if state.len() < SENDER_BYTES => SHORT,
            Ok(sender) => {
                store_sender(&sender, state);
                0
            }
        }
    }

    fn send(&self, state: &mut [u8], order: &[u8], reading: bool, block: &mut [u8]) -> u32 {
        interface::send(state, |sender| sender.send(order, reading, block))
    }

    fn sender_rest(&self, state: &[u8]) -> u8 {
        match load_sender(state) {
            Some(sender) if sender.is_spoiled() => SPOILED,
            Some(sender) if sender.finished => FINISHED,
            Some(sender) if sender.gave_up() => GAVE_UP,
            Some(_) => GOING_ON,
            None => SPOILED,
        }
    }
}

impl ReceivingEnd for Reference {
    fn open_receiver(&self, k: usize, code_size: Option<usize>, state: &mut [u8]) -> u8 {
        match receiver::open(k, code_size) {
            Err(refusal) => refusal,
            Ok(_) if state.len() < RECEIVER_BYTES => SHORT,
            Ok(receiver) => {
                store_receiver(&receiver, state);
                0
            }
        }
    }

    fn receive(
        &self,
        state: &mut [u8],
        line: Line,
        ready: bool,
        store: &mut [u8],
        counts: &mut Counts,
    ) -> u8 {
        interface::receive(state, counts, |receiver| {
            receiver.receive(line.bytes, line.bits, ready, store)
        })
    }

    fn return_bit(&self, state: &[u8]) -> u8 {
        match load_receiver(state) {
            Some(receiver) if receiver.is_spoiled() => SPOILED,
            Some(receiver) if receiver.return_bit => RETURN_1,
            Some(_) => RETURN_0,
            None => SPOILED,
        }
    }
}

/// Writes a number that a call gives, and its answer: 0 or the refusal's number.
fn answer(result: Result<usize, Refusal>, number: &mut usize) -> u8 {
    match result {
        Err(refusal) => refusal,
        Ok(given) => {
            *number = given;
            0
        }
    }
}

impl Tints for Reference {
    fn write_tint(&self, doses: &[u16], count: usize, order: &mut [u8], bytes: &mut usize) -> u8 {
        answer(tint::write(doses, count, order), bytes)
    }

    fn read_tint(&self, order: &[u8], doses: &mut [u16], count: &mut usize) -> u8 {
        answer(tint::read(order, doses), count)
    }
}

impl NoiseLoads for Reference {
    fn noise(&self, k: usize, first: &mut u32, second: &mut u32, block: &mut [u8]) -> u32 {
        let mut generator = Generator {
            first: *first,
            second: *second,
        };
        let loaded = generator.load(k, block);
        if loaded.is_ok() {
            *first = generator.first;
            *second = generator.second;
        }
        interface::encode_noise(loaded)
    }
}

impl RunProgram for Reference {
    fn run(&self, input: &[u8]) -> Vec<u8> {
        session::run(input)
    }
}
