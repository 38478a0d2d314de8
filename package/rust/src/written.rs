//! What calls write: to a buffer of the caller's, or to a string of their own.
use crate::ffi::{IRIKIT_OK, IRIKIT_SHORT};
use crate::Error;
use std::os::raw::c_char;
use std::str;

const UTF8: &str = "irikit writes UTF-8";

/// What a call writes to a buffer, as bytes.
pub(crate) fn bytes<C>(out: &mut [u8], call: C) -> Result<&[u8], Error>
where
    C: FnOnce(*mut c_char, usize, *mut usize) -> u8,
{
    let mut detail = 0;
    match call(out.as_mut_ptr().cast(), out.len(), &mut detail) {
        IRIKIT_OK => Ok(&out[..detail]),
        status => Err(Error::of(status, detail)),
    }
}

/// What a call writes to a buffer.
pub(crate) fn into<C>(out: &mut [u8], call: C) -> Result<&str, Error>
where
    C: FnOnce(*mut c_char, usize, *mut usize) -> u8,
{
    bytes(out, call).map(|bytes| str::from_utf8(bytes).expect(UTF8))
}

/// What a call writes that never writes more than `room` bytes.
pub(crate) fn owned<C>(room: usize, call: C) -> Result<String, Error>
where
    C: FnOnce(*mut c_char, usize, *mut usize) -> u8,
{
    let mut out = vec![0; room];
    let len = bytes(&mut out, call)?.len();
    out.truncate(len);
    Ok(String::from_utf8(out).expect(UTF8))
}

/// The words for a fault; of a fault of a later library, that it is one.
pub(crate) fn words<C>(out: &mut [u8; 64], call: C) -> &str
where
    C: FnOnce(*mut c_char, usize, *mut usize) -> u8,
{
    let mut detail = 0;
    match call(out.as_mut_ptr().cast(), out.len(), &mut detail) {
        IRIKIT_OK => str::from_utf8(&out[..detail]).expect(UTF8),
        _ => "another fault",
    }
}

/// What a call answers to lines, the last of which an LF may end, at the start of a buffer: the length of all answers. The call tells
/// its status, how many bytes of lines are answered, and how many bytes the answers have.
pub(crate) fn answer_lines<C>(lines: &str, buffer: &mut Vec<u8>, call: C) -> usize
where
    C: Fn(&str, &mut [u8]) -> (u8, usize, usize),
{
    let (ended, last) = lines.split_at(lines.rfind('\n').map_or(0, |lf| lf + 1));
    buffer.resize(buffer.capacity().max(4096), 0);
    let len = answer_ended(ended, 0, buffer, &call);
    if last.is_empty() {
        return len;
    }
    answer_ended(&format!("{last}\n"), len, buffer, &call)
}

/// The same of lines each ended by an LF, after the first `len` bytes of the buffer.
fn answer_ended<C>(lines: &str, mut len: usize, buffer: &mut Vec<u8>, call: &C) -> usize
where
    C: Fn(&str, &mut [u8]) -> (u8, usize, usize),
{
    let mut at = 0;
    loop {
        let (status, consumed, detail) = call(&lines[at..], &mut buffer[len..]);
        (at, len) = (at + consumed, len + detail);
        match status {
            IRIKIT_OK => return len,
            IRIKIT_SHORT => buffer.resize(2 * buffer.len() + lines.len() - at, 0),
            _ => unreachable!("what stands for all lines is valid: {status}"),
        }
    }
}
