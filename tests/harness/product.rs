//! The product as the tests and the benchmark see it. Only this file knows how it is reached.
//!
//! Built with `--cfg linked` and the product's library, its C function is called in this process, by one thread at a time;
//! without, the listing program is started for each day.

use std::io::{Read, Write};
use std::path::{Path, PathBuf};
use std::process::{Command, Stdio};
use std::sync::mpsc;
#[cfg(linked)]
use std::sync::Mutex;
use std::sync::OnceLock;
use std::time::Duration;

#[cfg(linked)]
extern "C" {
    /// Takes the records one after the other from an empty day up to close, and writes the listing to the front of `out`.
    /// Returns the number of bytes written or, at a refusal, its number times 2^32; then `out` is as it was.
    fn gristpebble_listing(records: *const u8, length: usize, out: *mut u8, room: usize) -> u64;
}

#[allow(dead_code)]
pub const LINKED: bool = cfg!(linked);

#[allow(dead_code)]
pub static PROFILER: OnceLock<PathBuf> = OnceLock::new();

#[cfg(linked)]
static ONE_AT_A_TIME: Mutex<()> = Mutex::new(());

/// Into a lent buffer, in this process: the number of bytes written, or the refusal's number.
#[cfg(linked)]
#[allow(dead_code)]
pub fn product_listing_into(records: &[u8], out: &mut [u8]) -> Result<usize, u64> {
    let result = unsafe { gristpebble_listing(records.as_ptr(), records.len(), out.as_mut_ptr(), out.len()) };
    if result >> 32 == 0 {
        Ok(result as usize)
    } else {
        Err(result >> 32)
    }
}

/// What the product prints for these records.
#[cfg(linked)]
#[allow(dead_code)]
pub fn product_listing(records: &[u8]) -> Vec<u8> {
    let mut out = vec![0xFF; 46_080];
    let turn = ONE_AT_A_TIME.lock().unwrap();
    let result = product_listing_into(records, &mut out);
    drop(turn);
    match result {
        Ok(count) => {
            out.truncate(count);
            out
        }
        Err(number) if out.iter().all(|&byte| byte == 0xFF) => format!("X {number}\n").into_bytes(),
        Err(_) => b"(a refusal wrote to the lent slice)\n".to_vec(),
    }
}

/// What the product prints for these records.
#[cfg(not(linked))]
#[allow(dead_code)]
pub fn product_listing(records: &[u8]) -> Vec<u8> {
    run_program(PROFILER.get().expect("the listing program is given"), records)
}

/// A program that takes longer than this is ended.
const PATIENCE: Duration = Duration::from_secs(60);

/// Runs a program on these bytes of standard input: what it printed, and a note if it did not end by itself.
#[allow(dead_code)]
pub fn run_program(program: &Path, input: &[u8]) -> Vec<u8> {
    run(program, input, false)
}

/// The same with a standard input that stays open after these bytes, at most 16,384.
#[allow(dead_code)]
pub fn run_program_open(program: &Path, input: &[u8]) -> Vec<u8> {
    run(program, input, true)
}

fn run(program: &Path, input: &[u8], open: bool) -> Vec<u8> {
    let mut child = Command::new(program)
        .stdin(Stdio::piped())
        .stdout(Stdio::piped())
        .spawn()
        .unwrap_or_else(|error| panic!("{}: {error}", program.display()));
    let mut stdin = child.stdin.take().unwrap();
    let mut stdout = child.stdout.take().unwrap();
    let mut out = Vec::new();
    let (done, waiting) = mpsc::channel();
    // The program may stop reading at close; that is no error. What fits in a pipe is written before anything is read.
    let (front, rest) = input.split_at(input.len().min(16_384));
    let _ = stdin.write_all(front);
    let mut kept = None;
    std::thread::scope(|scope| {
        if open {
            kept = Some(stdin);
        } else if rest.is_empty() {
            drop(stdin);
        } else {
            scope.spawn(move || {
                let _ = stdin.write_all(rest);
            });
        }
        let child = &mut child;
        scope.spawn(move || {
            if waiting.recv_timeout(PATIENCE).is_err() {
                let _ = child.kill();
            }
        });
        stdout.read_to_end(&mut out).unwrap();
        done.send(()).unwrap_or(());
    });
    if child.wait().unwrap().code().is_none() {
        out.extend_from_slice(b"(ended by a signal)\n");
    }
    drop(kept);
    out
}
