//! Stand-in for the product's listing program, built from the second implementation. It answers at close or at a refusal.
use std::io::{Read, Write};

fn main() {
    let mut input = Vec::new();
    let mut part = [0; 4_096];
    let mut printed = reference::profiler(&input);
    while printed == b"X 2\n" {
        let count = std::io::stdin().read(&mut part).unwrap();
        if count == 0 {
            break;
        }
        input.extend_from_slice(&part[..count]);
        printed = reference::profiler(&input);
    }
    std::io::stdout().write_all(&printed).unwrap();
}
