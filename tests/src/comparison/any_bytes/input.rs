//! The bytes of a case, and what is read from them: numbers, bytes to lend, the arguments of calls and
//! bits of the line.

use crate::calls::{Line, Opening};
use crate::comparison::lockstep::ReceivingCall;
use crate::damage::invert;
use crate::reference::bits::{bits_of, unpack, Bits};
use crate::reference::block::{assemble, block_bits, cancel, synchronising_block};
use crate::reference::block::{CHECK_BITS, END, LENGTHS, SEQUENCE};
use crate::reference::loop_time::{longest_loop, SPEEDS};
use crate::reference::marks::{CODE_SIZES, MARKS};
use crate::reference::order::{end_payload, letter};

/// A number of data bits for which a case can lend bytes.
pub fn bounded_length(k: usize) -> usize {
    k.min(LENGTHS[3])
}

/// The bytes of a case; behind the last come zeros.
pub struct Input<'a> {
    bytes: &'a [u8],
}

impl Input<'_> {
    pub fn new(bytes: &[u8]) -> Input<'_> {
        Input { bytes }
    }

    /// No byte is left.
    pub fn is_empty(&self) -> bool {
        self.bytes.is_empty()
    }

    pub fn byte(&mut self) -> u8 {
        let Some((&first, rest)) = self.bytes.split_first() else {
            return 0;
        };
        self.bytes = rest;
        first
    }

    pub fn flag(&mut self) -> bool {
        self.byte() % 2 == 1
    }

    pub fn number(&mut self) -> u16 {
        u16::from_le_bytes([0; 2].map(|_: u8| self.byte()))
    }

    pub fn word(&mut self) -> u32 {
        u32::from_le_bytes([0; 4].map(|_: u8| self.byte()))
    }

    /// Any number.
    pub fn any(&mut self) -> usize {
        (self.word() as usize) << 32 | self.word() as usize
    }

    pub fn below(&mut self, bound: usize) -> usize {
        self.word() as usize % bound
    }

    /// Some bytes of the case, repeated.
    pub fn pattern(&mut self, count: usize) -> Vec<u8> {
        let most = usize::from(self.byte()).min(self.bytes.len());
        let (pattern, rest) = self.bytes.split_at(most);
        self.bytes = rest;
        pattern
            .iter()
            .chain(&[0x6C])
            .cycle()
            .take(count)
            .copied()
            .collect()
    }

    /// Mostly this number, or one near it, or 0.
    pub fn near(&mut self, number: usize) -> usize {
        match self.byte() {
            byte @ 0xE0..=0xEF => number + usize::from(byte % 16),
            0xFF => 0,
            byte @ 0xF0.. => number.saturating_sub(usize::from(byte % 16) + 1),
            _ => number,
        }
    }

    /// Bytes to lend where this many are wanted.
    pub fn lent(&mut self, wanted: usize) -> Vec<u8> {
        let count = self.near(wanted);
        self.pattern(count)
    }

    /// A call on this line, the machine ready or not, with a store of which this many bytes are wanted.
    pub fn receiving_call<'a>(&mut self, line: Line<'a>, wanted: usize) -> ReceivingCall<'a> {
        let (ready, lent) = match self.byte() % 4 {
            0 | 1 => (true, self.near(wanted)),
            2 => (false, self.near(wanted)),
            _ => (false, wanted / 2),
        };
        ReceivingCall {
            line,
            ready,
            lent,
            remainder: self.number(),
        }
    }

    /// A number of line bits to lend, of so many that are there.
    pub fn bits(&mut self, pending: usize) -> usize {
        match self.byte() {
            byte @ 0..=63 => usize::from(byte),
            64..=127 => self.below(pending + 2),
            255 => self.any(),
            _ => pending,
        }
    }

    /// Mostly one of the four, the short ones more often since they take less time, one near them, a
    /// multiple of 8, or any number.
    pub fn length(&mut self) -> usize {
        match self.byte() {
            byte @ 0..=235 => LENGTHS[[0, 0, 0, 0, 1, 1, 2, 3][usize::from(byte) % 8]],
            236..=239 => 8 * self.below(501),
            byte @ 240..=250 => LENGTHS[usize::from(byte) % 4] - 5 + usize::from(byte - 240),
            _ => self.any(),
        }
    }

    /// None, one of the four, one near them, one with a lowest byte near them, or any number.
    pub fn code_size(&mut self) -> Option<usize> {
        match self.byte() {
            0..=99 => None,
            byte @ 100..=239 => Some(CODE_SIZES[usize::from(byte) % 4]),
            byte @ 240..=249 => Some(usize::from(byte) - 240),
            byte @ 250..=253 => Some(256 * usize::from(byte) + self.below(10)),
            _ => Some(self.any()),
        }
    }

    /// k, a speed and a loop, mostly near the longest.
    pub fn loop_arguments(&mut self) -> (usize, u32, u32) {
        let k = self.length();
        let speed = match self.byte() {
            byte @ 0..=239 => SPEEDS[usize::from(byte) % 6],
            _ => self.word() as usize,
        };
        let loop_ms = match self.byte() {
            byte @ 0..=127 => usize::from(byte),
            byte @ 128..=240 if LENGTHS.contains(&k) && speed > 0 => {
                (longest_loop(k, speed).unwrap_or(0) + usize::from(byte)).saturating_sub(184)
            }
            _ => self.word() as usize,
        };
        (k, speed as u32, loop_ms as u32)
    }

    pub fn opening(&mut self, length: usize) -> Opening {
        let (k, speed, loop_ms) = self.loop_arguments();
        Opening {
            k,
            speed,
            loop_ms,
            length,
            code_size: self.code_size(),
        }
    }

    /// Bits of the line: a block that some rule is about, the sequence, or any bits; cancelled or not,
    /// damaged or not.
    pub fn line_bits(&mut self, k: usize, taken: usize) -> Bits {
        let k = if LENGTHS.contains(&k) { k } else { LENGTHS[0] };
        let mut bits = match self.byte() {
            0..=39 => synchronising_block(k),
            40..=139 => {
                let service = letter(taken + 2 + usize::from(self.byte()));
                assemble(service, &self.payload(k))
            }
            140..=149 => assemble(self.byte() % 16, &self.payload(k)),
            150..=159 => assemble(MARKS[usize::from(self.byte()) % 4], &self.payload(k)),
            160..=199 => {
                let length = (taken * k + 8).saturating_sub(usize::from(self.byte()));
                assemble(END, &end_payload(k, length))
            }
            200..=209 => assemble(END, &end_payload(k, self.word() as usize)),
            210..=229 => {
                let before = usize::from(self.byte());
                let mut bits = self.payload(before);
                bits.extend(bits_of(SEQUENCE, CHECK_BITS));
                bits
            }
            _ => self.payload(block_bits(k)),
        };
        self.harm(&mut bits);
        bits
    }

    /// Cancels the bits or not, and damages them or not.
    fn harm(&mut self, bits: &mut [bool]) {
        let harm = self.byte();
        if harm % 8 == 7 {
            cancel(bits);
        }
        if harm > 191 && !bits.is_empty() {
            let first = self.below(bits.len());
            let pattern = bits_of(self.word() as usize, CHECK_BITS + 1);
            invert(&mut bits[first..], &pattern);
        }
    }

    fn payload(&mut self, count: usize) -> Bits {
        unpack(&self.pattern(count.div_ceil(8)), 0, count)
    }
}
