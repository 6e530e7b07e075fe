//! A benchmark, no test: taking the records of a day, close, and the listing, for days of 0, 1, 10 and 40 instructions.
//! Side by side: the second implementation second by second, plain Rust by segments, and the product if it is linked.

#[path = "../tests/harness/days.rs"]
#[allow(dead_code)]
mod days;
#[path = "../tests/harness/product.rs"]
mod product;

use std::hint::black_box;
use std::time::Instant;

const DAYS: usize = 64; // different days of each size
const ROUNDS: usize = 9; // the fastest round counts, of each day
const MANY: usize = 200; // rounds of what is short

/// Microseconds for one day by each way of working it out: the ways in turn, round by round; of each day the fastest round, the
/// mean of these.
fn time(inputs: &[Vec<u8>], rounds: usize, repeat: usize, ways: &mut [&mut dyn FnMut(&[u8]) -> usize]) -> Vec<f64> {
    let mut sums = vec![0.0; ways.len()];
    for input in inputs {
        let mut best = vec![f64::MAX; ways.len()];
        for _ in 0..rounds {
            for (way, best) in ways.iter_mut().zip(&mut best) {
                let begun = Instant::now();
                for _ in 0..repeat {
                    black_box(way(black_box(input)));
                }
                *best = best.min(begun.elapsed().as_secs_f64() / repeat as f64);
            }
        }
        sums.iter_mut().zip(best).for_each(|(sum, best)| *sum += best);
    }
    sums.iter().map(|sum| sum * 1e6 / inputs.len() as f64).collect()
}

/// As the product is called: a day that starts empty, every record up to close, the listing into a lent buffer.
fn second_by_second(input: &[u8], out: &mut [u8]) -> usize {
    let mut day = reference::Day::default();
    let mut rest = input;
    while day.closed.is_none() {
        let used = day.take(rest).expect("every record is taken");
        rest = &rest[used..];
    }
    day.list(out).expect("the slice is long enough")
}

/// Plain Rust by segments and, if it is linked, the product, in turn.
#[cfg(linked)]
fn time_both(inputs: &[Vec<u8>]) -> (f64, Option<f64>) {
    let (mut day, mut out) = (segments::Day::new(), vec![0; segments::LONGEST_LISTING]);
    let mut lent = vec![0; segments::LONGEST_LISTING];
    let mut plain = |input: &[u8]| segments::listing(&mut day, input, &mut out);
    let mut product = |input: &[u8]| product::product_listing_into(input, &mut lent).unwrap_or(0);
    let times = time(inputs, MANY, 4, &mut [&mut plain, &mut product]);
    (times[0], Some(times[1]))
}

#[cfg(not(linked))]
fn time_both(inputs: &[Vec<u8>]) -> (f64, Option<f64>) {
    let (mut day, mut out) = (segments::Day::new(), vec![0; segments::LONGEST_LISTING]);
    let mut plain = |input: &[u8]| segments::listing(&mut day, input, &mut out);
    (time(inputs, MANY, 4, &mut [&mut plain])[0], None)
}

/// The product with a byte less lent than always suffices: it measures the listing before it writes.
#[cfg(linked)]
fn time_shorter(inputs: &[Vec<u8>]) -> Option<f64> {
    let mut lent = vec![0; segments::LONGEST_LISTING - 1];
    let mut product = |input: &[u8]| product::product_listing_into(input, &mut lent).unwrap_or(0);
    Some(time(inputs, MANY, 4, &mut [&mut product])[0])
}

#[cfg(not(linked))]
fn time_shorter(_: &[Vec<u8>]) -> Option<f64> {
    None
}

/// Every way prints what the second implementation prints: the bytes printed.
fn agree(input: &[u8]) -> usize {
    let expected = reference::profiler(input);
    let mut out = vec![0; segments::LONGEST_LISTING];
    let written = segments::listing(&mut segments::Day::new(), input, &mut out);
    assert!(out[..written] == expected[..], "plain Rust by segments prints another day");
    #[cfg(linked)]
    assert!(product::product_listing(input) == expected, "the product prints another day");
    written
}

fn text(value: Option<f64>) -> String {
    value.map_or("-".to_string(), |v| format!("{v:.2}"))
}

/// Days of 0, 1, 10 and 40 instructions.
fn by_size() {
    println!("instructions  bytes in  bytes out  by second  by segments   product  second/product  product/segments  shorter slice");
    for count in [0, 1, 10, 40] {
        let inputs: Vec<Vec<u8>> = (0..DAYS as u64)
            .map(|number| {
                let r = &mut days::Random::new(77, number * 100 + count);
                let plan = days::plain_plan(r, count as usize, false);
                plan.records(r).concat()
            })
            .collect();
        let printed: usize = inputs.iter().map(|input| agree(input)).sum();
        let mut out = vec![0; segments::LONGEST_LISTING];
        let by_second = time(&inputs, ROUNDS, 1, &mut [&mut |input: &[u8]| second_by_second(input, &mut out)])[0];
        let (by_segments, product) = time_both(&inputs);
        let bytes_in: usize = inputs.iter().map(Vec::len).sum();
        println!(
            "{count:>12}  {:>8}  {:>9}  {by_second:>9.1}  {by_segments:>11.2}  {:>8}  {:>14}  {:>16}  {:>13}",
            bytes_in / DAYS,
            printed / DAYS,
            text(product),
            text(product.map(|p| by_second / p)),
            text(product.map(|p| p / by_segments)),
            text(time_shorter(&inputs)),
        );
    }
}

/// A number of the unit, by its place among the 62, set to another.
fn with(mut records: Vec<u8>, place: usize, number: u32) -> Vec<u8> {
    records[1 + 4 * place..5 + 4 * place].copy_from_slice(&number.to_be_bytes());
    records
}

/// The paper's day with ramps and holds of other lengths.
fn by_length() {
    let day = std::fs::read("examples/document01.records").expect("the paper's day");
    let (rate, trigger, minutes) = (35, 44, 47); // ramp-up rate 1; dwell trigger 1 and its minutes
    println!("the paper's day                     by segments   product");
    for (name, records) in [
        ("as it is, a ramp of 180 s", day.clone()),
        ("a ramp of a second", with(day.clone(), rate, 180_000)),
        ("a ramp to the day's end", with(day.clone(), rate, 2)),
        ("a hold to the day's end", with(with(day, trigger, 101_000), minutes, 1_440)),
    ] {
        agree(&records);
        let (by_segments, product) = time_both(&[records]);
        println!("{name:<34}  {by_segments:>11.2}  {:>8}", text(product));
    }
}

fn main() {
    println!("Microseconds for one day (take, close, list); mean of {DAYS} days of each size, of each the fastest of {ROUNDS} rounds,");
    println!("by segments and product of {MANY} rounds in turn.");
    by_size();
    by_length();
}
