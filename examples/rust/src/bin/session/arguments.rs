//! What both programs are called with: options, numbers and the usage line.

use order_line::Generator;
use std::env;
use std::ffi::{OsStr, OsString};
use std::process::ExitCode;

/// The words that the noise starts from where the arguments give no others.
const WORDS: Generator = Generator {
    first: 1968,
    second: 41,
};

/// A 32-bit number, decimal digits alone.
fn number(text: &OsStr) -> Option<u32> {
    let text = text.to_str()?;
    let digits = text.bytes().all(|byte| byte.is_ascii_digit());
    text.parse().ok().filter(|_| digits)
}

/// The numbers of these arguments, if each is one.
pub fn numbers(texts: &[OsString]) -> Option<Vec<u32>> {
    texts.iter().map(|text| number(text)).collect()
}

/// The words of the option `--noise FIRST SECOND`, if it stands before all other arguments, and the others; nothing if
/// it cannot be read.
fn take_noise_option(arguments: &[OsString]) -> Option<(Generator, &[OsString])> {
    match arguments {
        [option, first, second, others @ ..] if option == "--noise" => {
            let (first, second) = (number(first)?, number(second)?);
            Some((Generator { first, second }, others))
        }
        [option, ..] if option == "--noise" => None,
        others => Some((WORDS, others)),
    }
}

/// The words of the noise, and what `read` makes of the other arguments. Otherwise the exit status, after the usage line:
/// 0, on the standard output, if `--help` is one of the arguments; 2, on the standard error, if they cannot be read.
pub fn arguments<R>(
    usage: &str,
    read: impl FnOnce(&[OsString]) -> Option<R>,
) -> Result<(Generator, R), ExitCode> {
    let arguments: Vec<OsString> = env::args_os().skip(1).collect();
    if arguments.iter().any(|argument| argument == "--help") {
        println!("usage: {usage}");
        return Err(ExitCode::SUCCESS);
    }
    let request = take_noise_option(&arguments)
        .and_then(|(words, others)| read(others).map(|request| (words, request)));
    request.ok_or_else(|| {
        eprintln!("usage: {usage}");
        ExitCode::from(2)
    })
}
