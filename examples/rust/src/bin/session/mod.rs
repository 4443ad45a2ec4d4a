//! What the programs share: an office and a machine, with a noisy line between them. The two meet only in the bits of the
//! line and in the return bit; the noise and the session stand for the modems and the clock.

mod arguments;

pub use arguments::{arguments, numbers};
use order_line::{Event, Receiver, Refusal, Rest, Sender, Sent};
use order_line::{Generator, block_bytes, store_bytes};
use std::process::ExitCode;

const SPEED: u32 = 1200;
const LOOP_MS: u32 = 100;

// ---- the office: the sending end

struct Office {
    sender: Sender,
    order: Vec<u8>,
    block: Vec<u8>,
    synchronising: usize,
    cancelled: usize,
    repeats: usize,
    items_begun: usize,
}

impl Office {
    /// With a code size both ends use marks.
    fn open(k: usize, size: Option<usize>, order: Vec<u8>) -> Result<Office, Refusal> {
        let length = 8 * order.len();
        let sender = match size {
            Some(size) => Sender::open_with_marks(k, SPEED, LOOP_MS, length, size, &order)?,
            None => Sender::open(k, SPEED, LOOP_MS, length, &order)?,
        };
        Ok(Office {
            sender,
            order,
            block: vec![0; block_bytes(k)],
            synchronising: 0,
            cancelled: 0,
            repeats: 0,
            items_begun: 0,
        })
    }

    /// At the start of a block period: the block's bits but the last do not depend on the reading, which is not there
    /// yet. So they are taken from a sending call on a copy of the sender, and the copy is dropped.
    fn begin_block(&mut self) -> Result<(), Refusal> {
        let mut copy = self.sender.clone();
        copy.send(&self.order, false, &mut self.block)?;
        Ok(())
    }

    /// Before the last bit goes out, with the reading taken then: the sending call that counts. It writes the same block,
    /// its last bit inverted if the block is cancelled.
    fn end_block(&mut self, reading: bool) -> Result<(), Refusal> {
        match self.sender.send(&self.order, reading, &mut self.block)? {
            Sent::Synchronising => self.synchronising += 1,
            Sent::Item {
                number, cancelled, ..
            } => {
                self.cancelled += usize::from(cancelled);
                self.repeats += usize::from(number < self.items_begun);
                self.items_begun = self.items_begun.max(number + 1);
            }
        }
        Ok(())
    }
}

// ---- the machine: the receiving end

#[derive(Default)]
struct Counts {
    sync: usize,
    bad: usize,
    /// Bad blocks with remainder 1, as a block shows that was only cancelled.
    bad_with_1: usize,
    accepted: usize,
    previous: usize,
    ended: usize,
    alarms: usize,
}

struct Machine {
    receiver: Receiver,
    /// The order as it arrives; of use only once `length` is there.
    store: Vec<u8>,
    /// Bits of the order, once its end was reported.
    length: Option<usize>,
    alarm: Option<Event>,
    /// The refusal that stopped the machine.
    refusal: Option<Refusal>,
    return_bit: bool,
    counts: Counts,
}

impl Machine {
    /// With room for any order that this k can bring, and with a code size if the office has one: the two need not be the
    /// same.
    fn open(k: usize, size: Option<usize>) -> Result<Machine, Refusal> {
        let receiver = match size {
            Some(size) => Receiver::open_with_marks(k, size)?,
            None => Receiver::open(k)?,
        };
        let return_bit = receiver.return_bit()?;
        Ok(Machine {
            receiver,
            store: vec![0; store_bytes(k)],
            length: None,
            alarm: None,
            refusal: None,
            return_bit,
            counts: Counts::default(),
        })
    }

    /// What a serial line's interrupt has gathered: up to 64 bits, the earliest in the top bit. A block may end within
    /// them; a call stops there, and the bits it left are lent again. This machine is always ready.
    fn on_bits(&mut self, mut piece: u64, mut bits: usize) {
        while bits > 0 && self.refusal.is_none() {
            let line = piece.to_be_bytes();
            match self.receiver.receive(&line, bits, true, &mut self.store) {
                Ok((event, used)) => {
                    self.on_event(event);
                    piece = piece.checked_shl(used as u32).unwrap_or(0);
                    bits -= used;
                }
                Err(refusal) => self.stop(refusal),
            }
        }
    }

    /// A refused call used no bit: a machine that lent the same bits again would do so for ever. It stops. It takes no
    /// more bits, holds the return channel at 1, so that an office that reads it gives up, and is opened anew before the
    /// next order. The refusal may be `Short`, if more items come than the store holds: a machine that was not opened anew
    /// may take the items of a second order behind those of the first.
    fn stop(&mut self, refusal: Refusal) {
        self.refusal = Some(refusal);
        self.return_bit = true;
    }

    /// The order, once its end was reported: the first bytes of the store, an eighth as many as its length has bits.
    fn order(&self) -> Option<Vec<u8>> {
        self.length.map(|length| self.store[..length / 8].to_vec())
    }

    fn on_event(&mut self, event: Event) {
        match event {
            // More bits are wanted.
            Event::None => return,
            // In step with the blocks from here on.
            Event::Sync => self.counts.sync += 1,
            // The return bit asks for a repeat. The remainder is for service staff alone.
            Event::Bad(remainder) => {
                self.counts.bad += 1;
                self.counts.bad_with_1 += usize::from(remainder == 1);
            }
            // A busy machine asks for a repeat; this one is never busy.
            Event::Wait => {}
            // One item more in the store; not to be used before the end.
            Event::Accepted => self.counts.accepted += 1,
            // A repeat of what is there already.
            Event::Previous => self.counts.previous += 1,
            // The whole order is in the store: now it may be used.
            Event::Ended(length) => {
                self.counts.ended += 1;
                self.length = Some(length);
            }
            // Drop the order and call someone; only a new session helps. It is reported again at each call.
            Event::SequenceAlarm | Event::LengthAlarm => {
                if self.alarm.is_some() {
                    return;
                }
                self.counts.alarms += 1;
                self.alarm = Some(event);
            }
        }
        self.return_bit = self.receiver.return_bit().unwrap_or(true);
    }
}

// ---- the noise: the library's noise load, for a bench; no office and no machine has it

struct Noise {
    generator: Generator,
    /// Ones where this period's block is inverted.
    damage: Vec<u8>,
    /// This period's reading is turned over.
    turned: bool,
    /// The next period's is.
    turned_next: bool,
    periods: usize,
    /// Blocks with inverted bits.
    damaged: usize,
    /// Bits inverted in all.
    inverted: u32,
    /// Readings turned over.
    readings: usize,
}

impl Noise {
    fn new(generator: Generator, k: usize) -> Noise {
        Noise {
            generator,
            damage: vec![0; block_bytes(k)],
            turned: false,
            turned_next: false,
            periods: 0,
            damaged: 0,
            inverted: 0,
            readings: 0,
        }
    }

    /// At the start of a block period, once in each: draws its noise. The load is meant for a block as it was sent, but
    /// here the first bits are taken before the last one is decided. What is inverted does not depend on the block's
    /// bits, so the load is laid over zeros, and the ones that it leaves are the inverted places.
    fn begin_block(&mut self, k: usize) -> Result<(), Refusal> {
        self.damage.fill(0);
        let noise = self.generator.noise(k, &mut self.damage)?;
        // What was drawn in the period before.
        self.turned = self.turned_next;
        self.turned_next = noise.turned;
        self.periods += 1;
        self.damaged += usize::from(noise.inverted > 0);
        self.inverted += noise.inverted;
        Ok(())
    }

    /// The return bit as it is read at the sending call that counts.
    fn on_reading(&mut self, return_bit: bool) -> bool {
        self.readings += usize::from(self.turned);
        return_bit != self.turned
    }
}

// ---- one session

/// The bytes of a block from a place on, as they arrive: up to eight, the earliest bit on top.
fn arriving(noise: &Noise, block: &[u8], from: usize) -> u64 {
    let mut piece = [0; 8];
    for (i, to) in piece.iter_mut().enumerate().take(block.len() - from) {
        *to = block[from + i] ^ noise.damage[from + i];
    }
    u64::from_be_bytes(piece)
}

/// One block period: the block goes out in pieces of up to 64 bits and is taken as it comes. Its last four bits, which
/// stand in a byte of their own, go out when the reading was taken.
fn run_period(
    office: &mut Office,
    machine: &mut Machine,
    noise: &mut Noise,
    k: usize,
) -> Result<(), Refusal> {
    let last = block_bytes(k) - 1;
    office.begin_block()?;
    noise.begin_block(k)?;
    for from in (0..last).step_by(8) {
        let bits = 8 * 8.min(last - from);
        machine.on_bits(arriving(noise, &office.block, from), bits);
    }
    office.end_block(noise.on_reading(machine.return_bit))?;
    machine.on_bits(arriving(noise, &office.block, last), 4);
    Ok(())
}

fn print_summary(office: &Office, machine: &Machine, noise: &Noise, k: usize) {
    println!(
        "{} bytes, blocks of {k} data bits: {} periods, {} synchronising, {} cancelled, {} repeats",
        office.order.len(),
        noise.periods,
        office.synchronising,
        office.cancelled,
        office.repeats,
    );
    let counts = &machine.counts;
    println!(
        "events: {} sync, {} bad ({} with remainder 1), {} accepted, {} previous, {} ended, {} alarms",
        counts.sync,
        counts.bad,
        counts.bad_with_1,
        counts.accepted,
        counts.previous,
        counts.ended,
        counts.alarms,
    );
    println!(
        "noise: {} blocks damaged ({} bits), {} readings turned over",
        noise.damaged, noise.inverted, noise.readings,
    );
}

/// The order as it arrived, if it arrived whole; prints why not.
fn arrived_whole(office: &Office, machine: &Machine) -> Result<Option<Vec<u8>>, Refusal> {
    let rest = office.sender.rest()?;
    if rest == Rest::GaveUp {
        println!("the office gave up");
    }
    match machine.alarm {
        Some(Event::SequenceAlarm) => println!("sequence alarm"),
        Some(_) => println!("length alarm"),
        None => {}
    }
    if let Some(refusal) = machine.refusal {
        println!("the machine {refusal}");
    }
    let Some(order) = machine.order() else {
        println!("the machine reported no end");
        return Ok(None);
    };
    let same = machine.length == Some(8 * office.order.len()) && order == office.order;
    if !same {
        println!("the machine reported the end of another order");
    }
    Ok(Some(order).filter(|_| same && rest == Rest::Finished))
}

/// Brings an order over, under the noise of these words; the order as it arrived, if it arrived whole.
pub fn run_session(
    k: usize,
    size: Option<usize>,
    order: Vec<u8>,
    words: Generator,
) -> Result<Option<Vec<u8>>, Refusal> {
    let mut office = Office::open(k, size, order)?;
    let mut machine = Machine::open(k, size)?;
    let mut noise = Noise::new(words, k);
    println!("noise from the words {} and {}", words.first, words.second);
    while office.sender.rest()? == Rest::GoingOn {
        run_period(&mut office, &mut machine, &mut noise, k)?;
    }
    print_summary(&office, &machine, &noise, k);
    arrived_whole(&office, &machine)
}

// ---- what the programs end with

/// The exit status, after the last line: whether what arrived is what was sent.
pub fn exit_status(arrived: Result<bool, Refusal>) -> ExitCode {
    match arrived {
        Ok(true) => {
            println!("arrived whole");
            ExitCode::SUCCESS
        }
        Ok(false) => {
            println!("did not arrive whole");
            ExitCode::FAILURE
        }
        Err(refusal) => {
            eprintln!("{refusal}");
            ExitCode::from(2)
        }
    }
}

/// Whether library and wrapper are of one version; says so if not.
pub fn same_version() -> bool {
    let same = order_line::version() == order_line::VERSION;
    if !same {
        eprintln!("the library is of another version than the wrapper");
    }
    same
}
