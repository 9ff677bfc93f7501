//! Frames as a text, which encodes to the same bytes, whatever they are.

use crate::frames::{length, HEAD, LONGEST};
use crate::source::FRAME_TAG;
use std::fmt::Write;

/// The text of a stream of frames.
pub fn decode(bytes: &[u8]) -> String {
    let mut text = String::new();
    let mut at = 0;
    while let Some(content) = content_at(bytes, at) {
        if content.len() > LONGEST {
            text.push_str("# longer than 4,096 bytes: a bad frame for the program\n");
        }
        match request_text(content) {
            Some(request) => text.push_str(&request),
            None => put_bytes(&mut text, "bytes", content),
        }
        at += HEAD + content.len();
    }
    if at < bytes.len() {
        let _ = writeln!(text, "# no whole frame from byte {at} on");
        put_bytes(&mut text, "rest", &bytes[at..]);
    }
    text
}

/// The content of the frame at a byte, if there is a whole one.
fn content_at(bytes: &[u8], at: usize) -> Option<&[u8]> {
    let head = bytes.get(at..at + HEAD)?;
    bytes.get(at + HEAD..at + HEAD + length(head)).filter(|_| head[0] == FRAME_TAG)
}

/// A line of bytes.
pub fn put_bytes(text: &mut String, word: &str, bytes: &[u8]) {
    text.push_str(word);
    for byte in bytes {
        let _ = write!(text, " {byte:02x}");
    }
    text.push('\n');
}

/// The text of a record in a request's form, whatever its values; none for another one.
pub fn request_text(record: &[u8]) -> Option<String> {
    let [1, 0, 8, s0, s1, s2, s3, s4, s5, s6, s7, 2, 0, 1, limit, ref listing @ ..] = *record
    else {
        return None;
    };
    let slot = u64::from_be_bytes([s0, s1, s2, s3, s4, s5, s6, s7]);
    let mut text = format!("request slot {slot} T {limit}\n");
    let mut left: &[u8] = listing;
    while !left.is_empty() {
        left = match *left {
            [3, 0, 2, id, k, ref behind @ ..] => {
                let _ = writeln!(text, "list {id} k {k}");
                behind
            }
            [3, 0, 3, id, k, bound, ref behind @ ..] => {
                let _ = writeln!(text, "list {id} k {k} R {bound}");
                behind
            }
            _ => return None,
        };
    }
    Some(text)
}
