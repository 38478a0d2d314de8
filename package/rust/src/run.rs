//! The program in memory.
use crate::ffi;
use crate::grammar::at;

/// The status of a run of the program.
#[derive(Debug, Clone, Copy, PartialEq, Eq, Hash)]
#[non_exhaustive]
pub enum Status {
    /// The input was read to its end, and every answer is good.
    Done,
    /// The input was read to its end, and an answer isn't good.
    BadAnswer,
    /// The words are no command.
    NoCommand,
    /// The base is refused; the output says why.
    BadBase,
    /// The buffer has no room for the whole output.
    Short,
    /// Allocation failed.
    Memory,
    /// A line has more than 1,048,576 bytes.
    LongLine,
    /// The input has more than 1,073,741,824 bytes.
    LongInput,
}

fn status(number: u8) -> Status {
    match number {
        0 => Status::Done,
        1 => Status::BadAnswer,
        2 => Status::NoCommand,
        3 => Status::BadBase,
        ffi::IRIKIT_RUN_SHORT => Status::Short,
        6 => Status::Memory,
        7 => Status::LongLine,
        8 => Status::LongInput,
        _ => unreachable!("irikit.h has no run's status {number}"),
    }
}

/// What the program `irikit` does with words and an input: all its commands. Gives its status and its output.
///
/// ```
/// use irikit::{run, Status};
///
/// let field = "http://a/items?page=2\n<?page=3>;REL=next\n";
/// assert_eq!(run("links uri", field), (Status::Done, "ok <http://a/items?page=3>; rel=\"next\"\n".into()));
/// ```
pub fn run(words: &str, input: impl AsRef<[u8]>) -> (Status, String) {
    let input = input.as_ref();
    let mut out = vec![0; 2 * input.len() + 4096];
    loop {
        let (status, len) = run_into(words, input, &mut out);
        if status != Status::Short {
            out.truncate(len);
            return (status, String::from_utf8(out).expect("irikit writes UTF-8"));
        }
        out.resize(4 * out.len(), 0);
    }
}

/// [`run`] into a buffer: gives its status, and how many bytes it wrote.
pub fn run_into(words: &str, input: &[u8], out: &mut [u8]) -> (Status, usize) {
    let ((words, words_len), mut out_len) = (at(words), 0);
    let (size, out) = (out.len(), out.as_mut_ptr().cast());
    let number = unsafe {
        ffi::irikit_run(
            words,
            words_len,
            input.as_ptr().cast(),
            input.len(),
            out,
            size,
            &mut out_len,
        )
    };
    (status(number), out_len)
}
