//! A list of calls from an empty day, as the program `calls` reads and answers it.

use crate::day::Day;

pub const MOST: usize = 65_536; // longest slice of a call

/// The answers to a stream of calls: `T` length bytes (take) and `L` length (listing into that many bytes).
pub fn calls(stream: &[u8]) -> Vec<u8> {
    let mut day = Day::default();
    let mut out = Vec::new();
    let mut rest = stream;
    while !rest.is_empty() {
        match one_call(&mut day, rest, &mut out) {
            Some(used) => rest = &rest[used..],
            None => {
                out.extend_from_slice(b"malformed\n");
                break;
            }
        }
    }
    out
}

fn one_call(day: &mut Day, stream: &[u8], out: &mut Vec<u8>) -> Option<usize> {
    let head = stream.get(..5)?;
    let length = u32::from_be_bytes([head[1], head[2], head[3], head[4]]) as usize;
    if length > MOST {
        return None;
    }
    match head[0] {
        b'T' => {
            let slice = stream.get(5..5 + length)?;
            let (answer, used) = match day.take(slice) {
                Ok(used) => (0, used),
                Err(refusal) => (refusal, 0),
            };
            out.extend_from_slice(format!("A {answer} {used}\n").as_bytes());
            Some(5 + length)
        }
        b'L' => {
            let mut lent = vec![0xFF; length];
            let (answer, count) = match day.list(&mut lent) {
                Ok(count) => (0, count),
                Err(refusal) => (refusal, 0),
            };
            out.extend_from_slice(format!("A {answer} {count}\n").as_bytes());
            out.extend_from_slice(&lent[..count]);
            Some(5)
        }
        _ => None,
    }
}
