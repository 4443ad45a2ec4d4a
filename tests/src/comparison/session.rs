//! The run program: random scripts of `t`, `f` and `d`, and first lines of every kind.

use super::orders::Order;
use super::{hex, Difference, GroupFailure, Tally};
use crate::calls::{Reference, RunProgram};
use crate::reference::order::LONGEST;
use crate::rng::Rng;

/// The two worked sessions of docs/PROTOCOL.md.
const WORKED: [&str; 2] = [
    "240 8 a5\nt\nt\nt\nt\n",
    "240 241 00000000000000000000000000000000000000000000000000000000000000\nt\nd\nf\n",
];

/// Texts by which the kinds of lines in the outputs are counted.
const KINDS: [&str; 14] = [
    "!",
    "sync",
    "accepted",
    "previous",
    "ended",
    "bad",
    "none",
    "sequence alarm",
    "length alarm",
    "refused 1",
    "refused 4",
    "refused 5",
    "refused 6",
    "refused 8",
];

/// Every used reading is 1, and the sender gives up.
fn given_up() -> String {
    String::from("240 8 a5\n") + &"f\n".repeat(200)
}

/// Runs the whole group: the worked sessions, then this many random scripts.
pub fn compare(tested: &impl RunProgram, seed: u64, scripts: usize) -> Result<Tally, GroupFailure> {
    let mut tally = Tally::default();
    for script in WORKED {
        compare_script(tested, script.as_bytes(), &mut tally)?;
    }
    compare_script(tested, given_up().as_bytes(), &mut tally)?;
    for number in 0..scripts {
        let mut rng = Rng::for_case(seed, number);
        let script = match number % 500 {
            0 => longest(&mut rng),
            1..=100 => altered_script(&mut rng),
            _ => script(&mut rng),
        };
        compare_script(tested, &script, &mut tally)
            .map_err(|difference| format!("script {number}: {difference}"))?;
    }
    tally.require(&KINDS)?;
    Ok(tally)
}

fn compare_script(
    tested: &impl RunProgram,
    script: &[u8],
    tally: &mut Tally,
) -> Result<(), Difference> {
    let expected = Reference.run(script);
    let got = tested.run(script);
    let text = String::from_utf8_lossy(&expected).into_owned();
    if expected != got {
        let script = String::from_utf8_lossy(script);
        let got = String::from_utf8_lossy(&got);
        return Err(format!("input\n{script}\nexpected\n{text}\nbut got\n{got}"));
    }
    tally.count("scripts");
    for kind in KINDS.into_iter().filter(|kind| text.contains(kind)) {
        tally.count(kind);
    }
    Ok(())
}

/// A script that can be read, its order a short one.
fn script(rng: &mut Rng) -> Vec<u8> {
    let order = Order::short(rng);
    let most = 3 * order.items() + rng.pick(&[4, 30, 230]);
    let mut text = first_line(&order);
    text += &periods(rng, most);
    if rng.chance(10) {
        text.pop();
    }
    text.into_bytes()
}

fn first_line(order: &Order) -> String {
    format!("{} {} {}\n", order.k, order.length, hex(&order.bytes))
}

/// Up to `most` lines, in which undisturbed periods are common, rare or absent for a while.
fn periods(rng: &mut Rng, most: usize) -> String {
    const MIXTURES: [&[u8]; 7] = [
        b"t",
        b"tttttttd",
        b"tttttttf",
        b"tttfd",
        b"f",
        b"d",
        b"dddft",
    ];
    let mut mixture = rng.pick(&MIXTURES);
    let steady = rng.chance(20);
    let mut text = String::new();
    for _ in 0..rng.below(most + 1) {
        if !steady && rng.chance(8) {
            mixture = rng.pick(&MIXTURES);
        }
        text.push(char::from(rng.pick(mixture)));
        text.push('\n');
    }
    text
}

/// The longest order at some k, over a line that is seldom disturbed.
fn longest(rng: &mut Rng) -> Vec<u8> {
    let k = rng.pick(&[240, 480, 960, 3840]);
    let order = Order::with_length(rng, k, LONGEST);
    let mut text = first_line(&order);
    for _ in 0..order.items() + rng.below(40) {
        text += rng.pick(&[
            "t\n", "t\n", "t\n", "t\n", "t\n", "t\n", "t\n", "t\n", "d\n",
        ]);
    }
    text.into_bytes()
}

/// A script whose first line is at a border, or that is changed or cut in some place.
fn altered_script(rng: &mut Rng) -> Vec<u8> {
    let mut text = script(rng);
    let line = text.iter().position(|&byte| byte == b'\n').unwrap_or(0);
    let whole = text.len();
    match rng.below(6) {
        0 => return readable_line(rng).into_bytes(),
        1 => return unreadable_line(rng).into_bytes(),
        2 | 3 => change_bytes(rng, &mut text, line),
        4 => change_bytes(rng, &mut text, whole),
        _ => text.truncate(rng.below(12)),
    }
    text
}

/// Too large for any machine word.
const HUGE: &str = "123456789012345678901234567890";

/// First lines that are read, though what they say may be refused.
fn readable_line(rng: &mut Rng) -> String {
    let k = rng.pick(&["240", "240", "240", "0240", "3840", "0", "241", HUGE]);
    let (longest, above) = (LONGEST.to_string(), (LONGEST + 1).to_string());
    let length = rng.pick(&["1", "8", "16", "17", "0", "000", &longest, &above, HUGE]);
    let order = rng.pick(&["", " a5", " a5ff", " A5Ff", " a5ff00112233"]);
    let end = rng.pick(&["", " "]);
    let lines = periods(rng, 6);
    format!("{k} {length}{order}{end}\n{lines}")
}

/// First lines of which most cannot be read.
fn unreadable_line(rng: &mut Rng) -> String {
    let k = rng.pick(&["240", "240", "240", "", "-240", "+240", "x"]);
    let length = rng.pick(&["8", "8", "8", "", "8.0", "-8", "0x8"]);
    let order = rng.pick(&["a5ff", "a5ff", "", "a", "a5f", "0x", "g0"]);
    let end = rng.pick(&["", "", "  ", "\r", " t", "\t"]);
    let blank = rng.pick(&[" ", " ", "  ", "\t"]);
    let lines = periods(rng, 6);
    format!("{k}{blank}{length} {order}{end}\n{lines}")
}

/// Changes one to three bytes before `end`.
fn change_bytes(rng: &mut Rng, text: &mut Vec<u8>, end: usize) {
    for _ in 0..rng.between(1, 3) {
        let place = rng.below(end.min(text.len()).max(1));
        let byte = rng.pick(b"0123456789abcdefABCDEFtfd \n\r\t-+xS!\0\xFF");
        match rng.below(3) {
            0 => text.insert(place.min(text.len()), byte),
            1 if place < text.len() => text[place] = byte,
            _ if place < text.len() => drop(text.remove(place)),
            _ => {}
        }
    }
}

#[cfg(test)]
mod tests {
    use super::super::agreed;
    use super::*;

    #[test]
    fn a_sender_gives_up_after_192_periods() {
        let output = Reference.run(given_up().as_bytes());
        let text = String::from_utf8(output).unwrap();
        assert!(text.ends_with("191 !E 1 bad 1\nrefused 8\n"), "{text}");
    }

    #[test]
    fn scripts_bring_every_kind_of_line() {
        agreed(compare(&Reference, 9, 1_000)).assert_above(2, &KINDS);
    }
}
