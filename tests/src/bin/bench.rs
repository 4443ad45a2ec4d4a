//! Measures the linked library against the table-driven sibling and the second implementation.
//!
//! Those that are compared run in turn in the same rounds, on the same buffers, which are not
//! cleared between calls. The result is the ratios of the medians; nanoseconds of one call are
//! printed beside them. The library's states are in lent bytes, and the other two take a state by
//! value and hand it back; last, the sibling's receiving end in place.
//!
//! `bench count CALL K IMPLEMENTATION PASSES` makes this many passes of one implementation alone,
//! for callgrind to count: CALL is build, read, send or a number of bits received a call,
//! IMPLEMENTATION 0, 1 or 2 in that order, or 3 for receiving by the table-driven sibling in place.
//! It prints the number of calls of a pass. With write_tint or read_tint for CALL, K is a number of
//! doses; there is no sibling to measure these against, so IMPLEMENTATION is 0.

use order_line_tests::calls::{Blocks, Line, Reference};
use order_line_tests::calls::{ReceivingEnd, SendingEnd, Tints};
use order_line_tests::interface::{decode_read, decode_sent, is_event, Counts};
use order_line_tests::interface::{store_receiver, store_sender, RECEIVER_BYTES, SENDER_BYTES};
use order_line_tests::link::Library;
use order_line_tests::reference::bits::{pack, unpack};
use order_line_tests::reference::block::{block_bits, block_bytes, payload_bytes, Read, LENGTHS};
use order_line_tests::reference::order::letter;
use order_line_tests::reference::receiver::{self, Received, Receiver};
use order_line_tests::reference::sender::{self, Next, Sender, Sent};
use order_line_tests::reference::tint::{tint_bytes, MOST_DOSES, MOST_STEPS_IN_ALL};
use order_line_tests::rng::Rng;
use order_line_tests::table::{self, TableDriven};
use std::env;
use std::hint::black_box;
use std::time::{Duration, Instant};

const ROUNDS: usize = 101;
/// Different blocks in turn, so that no call sees the data of the call before it.
const BUFFERS: usize = 16;
/// Receiving calls, and the most bits that they are lent.
const RECEIVING: [(&str, usize); 3] = [
    ("receive block", usize::MAX),
    ("receive 64 bits", 64),
    ("receive 1 bit", 1),
];
/// The machine is ready in every receiving call.
const READY: bool = true;
/// The least time of one round of one implementation.
const ROUND_TIME: Duration = Duration::from_micros(400);

/// An order of more items than a pass sends, the packed blocks of its first items, and a place to
/// write to.
struct Buffers {
    k: usize,
    order: Vec<u8>,
    blocks: Vec<Vec<u8>>,
    place: Vec<u8>,
    store: Vec<u8>,
}

impl Buffers {
    fn new(rng: &mut Rng, k: usize) -> Buffers {
        let order = rng.bytes((BUFFERS + 2) * payload_bytes(k));
        let items = order.chunks(payload_bytes(k)).take(BUFFERS).enumerate();
        let blocks = items.map(|(item, payload)| {
            let mut block = vec![0; block_bytes(k)];
            let built = Reference.build_block(k, letter(item), payload, &mut block);
            assert_eq!(built, 0);
            block
        });
        Buffers {
            k,
            blocks: blocks.collect(),
            order,
            place: vec![0; block_bytes(k)],
            store: vec![0; BUFFERS * payload_bytes(k)],
        }
    }

    fn build(&mut self, tested: &impl Blocks) {
        let payloads = self.order.chunks(payload_bytes(self.k)).take(BUFFERS);
        for (item, payload) in payloads.enumerate() {
            let k = black_box(self.k);
            let built = tested.build_block(k, letter(item), payload, &mut self.place);
            assert_eq!(black_box(built), 0);
        }
    }

    fn read(&mut self, tested: &impl Blocks) {
        for (item, block) in self.blocks.iter().enumerate() {
            let mut remainder = 0;
            let k = black_box(self.k);
            let number = tested.read_block(k, block, &mut self.place, &mut remainder);
            let read = decode_read(black_box(number), remainder);
            assert_eq!(read, Read::Passed(letter(item)));
        }
    }

    /// Sends the order's items from item 1 on, each with a reading of 0 that is used.
    fn send<S: BenchSender>(&mut self, tested: &S) {
        let length = 8 * self.order.len();
        let opened = sender::open(self.k, 200, 0, length, None, &self.order);
        let mut state = tested.state(Sender {
            next: Next::Newer,
            ..opened.expect("an opening that the rules accept")
        });
        for _ in 0..BUFFERS {
            let sent = tested.send(&mut state, &self.order, &mut self.place);
            assert!(black_box(sent));
        }
    }

    /// Receives the blocks in step; each is accepted.
    fn receive<R: BenchReceiver>(&mut self, tested: &R, lines: &Lines) {
        let n = block_bits(self.k);
        let mut state = tested.state(Receiver {
            search: false,
            return_bit: false,
            ..receiver::open(self.k, None).expect("one of the four")
        });
        for block in &lines.blocks {
            for (call, bytes) in block.chunks(lines.stride).enumerate() {
                let bits = lines.most.min(n - call * lines.most);
                let line = Line { bytes, bits };
                let used = tested.receive(&mut state, line, &mut self.store);
                assert_eq!(black_box(used), bits);
            }
        }
    }
}

/// The blocks' bits as calls are lent them: at most so many bits, in a stride of bytes.
struct Lines {
    most: usize,
    stride: usize,
    blocks: Vec<Vec<u8>>,
}

impl Lines {
    fn new(buffers: &Buffers, most: usize) -> Lines {
        let n = block_bits(buffers.k);
        let stride = most.div_ceil(8);
        let split = |block: &Vec<u8>| {
            let mut lines = Vec::new();
            for at in (0..n).step_by(most) {
                let mut line = pack(&unpack(block, at, most.min(n - at)));
                line.resize(stride, 0);
                lines.extend(line);
            }
            lines
        };
        Lines {
            most,
            stride,
            blocks: buffers.blocks.iter().map(split).collect(),
        }
    }

    fn calls(&self) -> usize {
        self.blocks
            .iter()
            .map(|block| block.len() / self.stride)
            .sum()
    }
}

/// A sending end with its state as it keeps it.
trait BenchSender {
    type State;
    fn state(&self, sender: Sender) -> Self::State;
    /// A call with reading 0; whether an item was sent.
    fn send(&self, state: &mut Self::State, order: &[u8], block: &mut [u8]) -> bool;
}

impl BenchSender for Library {
    type State = [u8; SENDER_BYTES];

    fn state(&self, sender: Sender) -> Self::State {
        let mut bytes = [0; SENDER_BYTES];
        store_sender(&sender, &mut bytes);
        bytes
    }

    fn send(&self, state: &mut Self::State, order: &[u8], block: &mut [u8]) -> bool {
        let word = SendingEnd::send(self, state, order, black_box(false), block);
        matches!(decode_sent(word), Sent::Item { .. })
    }
}

impl BenchSender for TableDriven {
    type State = Sender;

    fn state(&self, sender: Sender) -> Sender {
        sender
    }

    fn send(&self, state: &mut Sender, order: &[u8], block: &mut [u8]) -> bool {
        let (next, sent) = table::sender::send(state.clone(), order, black_box(false), block);
        *state = next;
        matches!(sent, Sent::Item { .. })
    }
}

impl BenchSender for Reference {
    type State = Sender;

    fn state(&self, sender: Sender) -> Sender {
        sender
    }

    fn send(&self, state: &mut Sender, order: &[u8], block: &mut [u8]) -> bool {
        let (next, sent) = state.clone().send(order, black_box(false), block);
        *state = next;
        matches!(sent, Sent::Item { .. })
    }
}

/// A receiving end with its state as it keeps it.
trait BenchReceiver {
    type State;
    fn state(&self, receiver: Receiver) -> Self::State;
    /// The number of bits used.
    fn receive(&self, state: &mut Self::State, line: Line, store: &mut [u8]) -> usize;
}

fn used(received: Received) -> usize {
    match received {
        Received::Reported { used, .. } => used,
        Received::Refused(number) => panic!("refused {number}"),
    }
}

impl BenchReceiver for Library {
    type State = [u8; RECEIVER_BYTES];

    fn state(&self, receiver: Receiver) -> Self::State {
        let mut bytes = [0; RECEIVER_BYTES];
        store_receiver(&receiver, &mut bytes);
        bytes
    }

    fn receive(&self, state: &mut Self::State, line: Line, store: &mut [u8]) -> usize {
        let mut counts = Counts::default();
        let number = ReceivingEnd::receive(self, state, line, READY, store, &mut counts);
        assert!(is_event(number), "refused {number}");
        counts.used
    }
}

impl BenchReceiver for TableDriven {
    type State = table::receiver::Receiver;

    fn state(&self, receiver: Receiver) -> Self::State {
        table::receiver::Receiver::from(receiver)
    }

    fn receive(&self, state: &mut Self::State, line: Line, store: &mut [u8]) -> usize {
        let (next, received) = state.receive(line.bytes, line.bits, READY, store);
        *state = next;
        used(received)
    }
}

impl BenchReceiver for InPlace {
    type State = table::receiver::Receiver;

    fn state(&self, receiver: Receiver) -> Self::State {
        table::receiver::Receiver::from(receiver)
    }

    fn receive(&self, state: &mut Self::State, line: Line, store: &mut [u8]) -> usize {
        used(state.receive_in_place(line.bytes, line.bits, READY, store))
    }
}

impl BenchReceiver for Reference {
    type State = Receiver;

    fn state(&self, receiver: Receiver) -> Receiver {
        receiver
    }

    fn receive(&self, state: &mut Receiver, line: Line, store: &mut [u8]) -> usize {
        let (next, received) = state.clone().receive(line.bytes, line.bits, READY, store);
        *state = next;
        used(received)
    }
}

/// The table-driven sibling with its state changed in place, as the library's is.
struct InPlace;

/// One implementation's calls on the buffers.
type Pass<'a> = &'a dyn Fn(&mut Buffers);

/// A pass of the library, the table-driven sibling and the second implementation.
macro_rules! each_implementation {
    ($pass:ident $(, $argument:expr)?) => {
        [
            &|b: &mut Buffers| b.$pass(&Library $(, $argument)?),
            &|b: &mut Buffers| b.$pass(&TableDriven $(, $argument)?),
            &|b: &mut Buffers| b.$pass(&Reference $(, $argument)?),
        ]
    };
}

fn main() {
    let arguments: Vec<String> = env::args().skip(1).collect();
    let arguments: Vec<&str> = arguments.iter().map(String::as_str).collect();
    match arguments[..] {
        [] => measure_all(),
        ["count", call @ ("write_tint" | "read_tint"), doses, "0", passes] => {
            count_tint(call, number(doses), number(passes))
        }
        ["count", call, k, implementation, passes] => {
            count(call, number(k), number(implementation), number(passes))
        }
        _ => panic!("usage: bench [count CALL K IMPLEMENTATION PASSES]"),
    }
}

fn number(argument: &str) -> usize {
    argument.parse().expect("a number")
}

fn count(call: &str, k: usize, implementation: usize, passes: usize) {
    let mut buffers = Buffers::new(&mut Rng::new(41), k);
    let most = call.parse().unwrap_or(usize::MAX);
    let lines = Lines::new(&buffers, most.min(block_bits(k)));
    let in_place: Pass = &|b| b.receive(&InPlace, &lines);
    let implementations: [Pass; 3] = match call {
        "build" => each_implementation!(build),
        "read" => each_implementation!(read),
        "send" => each_implementation!(send),
        _ => each_implementation!(receive, &lines),
    };
    for _ in 0..passes {
        implementations.get(implementation).unwrap_or(&in_place)(&mut buffers);
    }
    println!(
        "{}",
        if most == usize::MAX {
            BUFFERS
        } else {
            lines.calls()
        }
    );
}

/// Passes of the library's calls on a tint order of so many doses.
fn count_tint(call: &str, count: usize, passes: usize) {
    let steps = (MOST_STEPS_IN_ALL / MOST_DOSES) as u16;
    let mut doses: Vec<u16> = (1..=count as u16).flat_map(|i| [i, steps]).collect();
    let mut order = vec![0; tint_bytes(count)];
    let (mut bytes, mut read) = (0, 0);
    let written = Reference.write_tint(&doses, count, &mut order, &mut bytes);
    assert_eq!(written, 0);
    let writes = call == "write_tint";
    for _ in 0..BUFFERS * passes {
        let answer = match writes {
            true => Library.write_tint(&doses, count, &mut order, &mut bytes),
            false => Library.read_tint(&order, &mut doses, &mut read),
        };
        assert_eq!(black_box(answer), 0);
    }
    println!("{BUFFERS}");
}

fn measure_all() {
    println!(
        "call               k  library ns    table ns   second ns  table/library  second/library"
    );
    let mut rng = Rng::new(41);
    let mut lengths = LENGTHS.map(|k| Buffers::new(&mut rng, k));
    for buffers in &mut lengths {
        measure(buffers, "build", BUFFERS, each_implementation!(build));
    }
    for buffers in &mut lengths {
        measure(buffers, "read", BUFFERS, each_implementation!(read));
    }
    for buffers in &mut lengths {
        measure(buffers, "send", BUFFERS, each_implementation!(send));
    }
    for (call, most) in RECEIVING {
        for buffers in &mut lengths {
            let lines = Lines::new(buffers, most.min(block_bits(buffers.k)));
            measure(
                buffers,
                call,
                lines.calls(),
                each_implementation!(receive, &lines),
            );
            let payloads = &buffers.order[..buffers.store.len()];
            assert_eq!(buffers.store, payloads, "what was received");
        }
    }
    println!("in place           k  library ns    table ns  table/library");
    for (call, most) in RECEIVING {
        for buffers in &mut lengths {
            let lines = Lines::new(buffers, most.min(block_bits(buffers.k)));
            let passes: [Pass; 2] = [&|b| b.receive(&Library, &lines), &|b| {
                b.receive(&InPlace, &lines)
            }];
            let [library, table] = medians(buffers, lines.calls(), passes);
            print_pair(call, buffers.k, library, table, table / library);
        }
    }
    println!("the library alone  k   receive ns     read ns   receive/read");
    for buffers in &mut lengths {
        let lines = Lines::new(buffers, block_bits(buffers.k));
        let passes: [Pass; 2] = [&|b| b.receive(&Library, &lines), &|b| b.read(&Library)];
        let [receive, read] = medians(buffers, BUFFERS, passes);
        print_pair("a whole block", buffers.k, receive, read, receive / read);
    }
}

fn print_pair(call: &str, k: usize, first: f64, second: f64, ratio: f64) {
    println!("{call:15} {k:4} {first:11.1} {second:11.1} {ratio:14.2}");
}

fn measure(buffers: &mut Buffers, call: &str, calls: usize, passes: [Pass; 3]) {
    let [library, table, second] = medians(buffers, calls, passes);
    let (k, by_table, by_second) = (buffers.k, table / library, second / library);
    println!(
        "{call:15} {k:4} {library:11.1} {table:11.1} {second:11.1} {by_table:14.2} {by_second:15.1}"
    );
}

/// The median time of one call, in nanoseconds, of each pass; they take turns.
fn medians<const M: usize>(buffers: &mut Buffers, calls: usize, passes: [Pass; M]) -> [f64; M] {
    let repeats = passes.map(|pass| repeats(buffers, pass));
    let mut times = [const { Vec::new() }; M];
    for _ in 0..ROUNDS {
        for (i, pass) in passes.into_iter().enumerate() {
            let start = Instant::now();
            for _ in 0..repeats[i] {
                pass(buffers);
            }
            let calls = (repeats[i] * calls) as f64;
            times[i].push(start.elapsed().as_nanos() as f64 / calls);
        }
    }
    times.map(|mut times| {
        times.sort_by(f64::total_cmp);
        times[ROUNDS / 2]
    })
}

/// How often a pass fills a round.
fn repeats(buffers: &mut Buffers, pass: Pass) -> usize {
    let mut repeats = 1;
    loop {
        let start = Instant::now();
        for _ in 0..repeats {
            pass(buffers);
        }
        if start.elapsed() >= ROUND_TIME {
            return repeats;
        }
        repeats *= 2;
    }
}
