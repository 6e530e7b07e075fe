//! Compares the product with the second implementation, byte for byte: vectors, random days and damaged inputs, lists of
//! calls. Ends with `compare: N passed, M failed`.
//!
//! compare --vectors FOLDER --profiler PROGRAM --calls PROGRAM [--days N] [--runs N] [--lists N] [--seed N]
//!         [--export FILE --closed N] [--show NUMBER]

mod cases;
mod days;
mod product;

use product::{product_listing, run_program, run_program_open, LINKED, PROFILER};
use reference::calls::calls;
use reference::day::profile_input;
use reference::records::Unit;
use reference::trajectory::Course;
use reference::Day;
use std::collections::BTreeMap;
use std::fmt::Write as _;
use std::path::{Path, PathBuf};

struct Options {
    vectors: PathBuf,
    profiler: PathBuf,
    calls: PathBuf,
    days: u64,
    runs: u64,
    lists: u64,
    seed: u64,
    export: Option<PathBuf>,
    closed: u64,
    show: Option<u64>,
}

fn options() -> Options {
    let words: Vec<String> = std::env::args().skip(1).collect();
    let given: BTreeMap<&str, &str> = words.chunks(2).map(|w| (w[0].as_str(), w.get(1).map_or("", |v| v.as_str()))).collect();
    let path = |name: &str| PathBuf::from(given.get(name).unwrap_or_else(|| panic!("{name} is missing")));
    let number = |name: &str, otherwise: u64| given.get(name).map_or(otherwise, |v| v.parse().expect(name));
    Options {
        vectors: path("--vectors"),
        profiler: path("--profiler"),
        calls: path("--calls"),
        days: number("--days", 20_000),
        runs: number("--runs", 2_000),
        lists: number("--lists", 2_000),
        seed: number("--seed", 1),
        export: given.get("--export").map(PathBuf::from),
        closed: number("--closed", 0),
        show: given.get("--show").map(|v| v.parse().expect("--show")),
    }
}

/// Passed and failed checks of one kind; the first differences are shown.
struct Tally {
    name: String,
    passed: u64,
    failed: u64,
}

impl Tally {
    fn new(name: &str) -> Tally {
        Tally { name: name.to_string(), passed: 0, failed: 0 }
    }
    fn check(&mut self, what: &str, difference: Option<String>) {
        match difference {
            None => self.passed += 1,
            Some(text) => {
                self.failed += 1;
                if self.failed <= 5 {
                    println!("{}: {what}: {text}", self.name);
                }
            }
        }
    }
    fn done(self, all: &mut (u64, u64)) {
        println!("{}: {} passed, {} failed", self.name, self.passed, self.failed);
        all.0 += self.passed;
        all.1 += self.failed;
    }
}

/// The first line in which two printed texts differ.
fn difference(expected: &[u8], got: &[u8]) -> Option<String> {
    if expected == got {
        return None;
    }
    let lines = |text: &[u8]| -> Vec<String> { String::from_utf8_lossy(text).split('\n').map(str::to_string).collect() };
    let (e, g) = (lines(expected), lines(got));
    let at = e.iter().zip(&g).take_while(|(a, b)| a == b).count();
    let line = |of: &[String]| of.get(at).cloned().unwrap_or_else(|| "(nothing)".to_string());
    Some(format!("line {}: expected '{}', got '{}'", at + 1, line(&e), line(&g)))
}

/// Works on the numbers 0 to `count` in two threads; the results in order.
fn for_each<T: Send>(count: u64, work: impl Fn(u64) -> T + Sync) -> Vec<T> {
    let workers = std::thread::available_parallelism().map_or(2, |n| n.get() as u64);
    let mut results: Vec<(u64, T)> = std::thread::scope(|scope| {
        let handles: Vec<_> = (0..workers)
            .map(|w| {
                let work = &work;
                scope.spawn(move || (w..count).step_by(workers as usize).map(|n| (n, work(n))).collect::<Vec<_>>())
            })
            .collect();
        handles.into_iter().flat_map(|h| h.join().expect("a worker failed")).collect()
    });
    results.sort_by_key(|(n, _)| *n);
    results.into_iter().map(|(_, t)| t).collect()
}

// ---- what the random days covered

type Coverage = BTreeMap<String, u64>;

fn cover(printed: &[u8], day: &Day) -> Vec<String> {
    let Some((profile, _)) = &day.closed else {
        return vec![String::from_utf8_lossy(printed).trim().replace("X ", "refusal ")];
    };
    let mut seen = vec!["closed days".to_string()];
    for fate in 0..=8u8 {
        if profile.fates.contains(&fate) {
            seen.push(format!("fate {fate}"));
        }
    }
    let holds = |c: &Course| c.stops.iter().any(|s| s.hold > 0);
    let starts: Vec<&Course> = profile.courses.iter().collect();
    if starts.iter().any(|c| holds(c)) {
        seen.push("a hold".into());
    }
    for heat in 1..=3 {
        if starts.iter().any(|c| c.heat == heat && c.start < day.unit.unwrap().msg * 60 && c.target > 0) {
            seen.push(format!("rise in column {heat}"));
        }
    }
    seen.push(format!("most stops {:02}", starts.iter().map(|c| c.stops.len()).max().unwrap()));
    if starts.iter().any(|c| c.begin == c.end) {
        seen.push("opening replaced at second 0".into());
    }
    seen
}

const MUST_BE_COVERED: [&str; 29] = [
    "fate 0",
    "fate 1",
    "fate 2",
    "fate 3",
    "fate 4",
    "fate 5",
    "fate 6",
    "fate 7",
    "fate 8",
    "refusal 1",
    "refusal 2",
    "refusal 3",
    "refusal 4",
    "refusal 5",
    "refusal 6",
    "refusal 7",
    "refusal 8",
    "refusal 9",
    "refusal 20",
    "refusal 21",
    "refusal 22",
    "refusal 23",
    "refusal 25",
    "a hold",
    "rise in column 1",
    "rise in column 2",
    "rise in column 3",
    "closed days",
    "opening replaced at second 0",
];

// ---- what the check of exact areas reads

fn unit_numbers(u: &Unit) -> String {
    let record = days::unit_record(u);
    let mut out = String::from("U");
    for four in record[1..].chunks(4) {
        write!(out, " {}", u32::from_be_bytes(four.try_into().unwrap())).unwrap();
    }
    out
}

/// A closed day: unit, courses, the records in hexadecimal, and the product's listing.
fn export(number: u64, day: &Day, records: &[u8], printed: &[u8]) -> Option<String> {
    let (profile, _) = day.closed.as_ref()?;
    let mut out = format!("D {number}\n{}\n", unit_numbers(day.unit.as_ref().unwrap()));
    for c in &profile.courses {
        write!(out, "C {} {} {} {} {}", c.begin, c.end, c.start, c.target, c.heat).unwrap();
        for rate in c.up_rates.iter().chain(&c.down_rates) {
            write!(out, " {rate}").unwrap();
        }
        out.push('\n');
    }
    out.push_str("R ");
    for byte in records {
        write!(out, "{byte:02x}").unwrap();
    }
    out.push('\n');
    out.push_str(&String::from_utf8_lossy(printed));
    out.push('\n');
    Some(out)
}

// ---- the comparisons

/// What the benchmark's plain Rust by segments prints.
fn by_segments(records: &[u8]) -> Vec<u8> {
    let mut out = vec![0xFF; segments::LONGEST_LISTING];
    let count = segments::listing(&mut segments::Day::new(), records, &mut out);
    out.truncate(count);
    out
}

fn vectors(options: &Options, all: &mut (u64, u64)) {
    let mut names: Vec<PathBuf> = std::fs::read_dir(&options.vectors)
        .expect("vectors")
        .map(|entry| entry.unwrap().path())
        .filter(|path| path.extension().is_some_and(|e| e == "records"))
        .collect();
    names.sort();
    let mut own = Tally::new("vectors, second implementation");
    let mut theirs = Tally::new("vectors, product");
    let mut linked = Tally::new("vectors, product in this process");
    let mut pieces = Tally::new("vectors, plain Rust by segments");
    let mut open = Tally::new("vectors, input left open");
    for path in names {
        let name = path.file_stem().unwrap().to_string_lossy().to_string();
        let records = std::fs::read(&path).unwrap();
        let printed = std::fs::read(path.with_extension("listing")).unwrap();
        own.check(&name, difference(&printed, &reference::profiler(&records)));
        theirs.check(&name, difference(&printed, &run_program(&options.profiler, &records)));
        pieces.check(&name, difference(&printed, &by_segments(&records)));
        // With too few bytes the program waits for more; any other answer comes at close or at the refusal.
        if printed != b"X 2\n" {
            open.check(&name, difference(&printed, &run_program_open(&options.profiler, &records)));
        }
        if LINKED {
            linked.check(&name, difference(&printed, &product_listing(&records)));
        }
    }
    own.done(all);
    theirs.done(all);
    pieces.done(all);
    open.done(all);
    if LINKED {
        linked.done(all);
    }
}

/// The paper's own cases: the lines that it gives stand in the listings of both.
fn paper_cases(options: &Options, all: &mut (u64, u64)) {
    let mut tally = Tally::new("cases of the paper");
    for case in cases::paper_cases() {
        for (who, printed) in [
            ("second implementation", reference::profiler(&case.input)),
            ("product", run_program(&options.profiler, &case.input)),
        ] {
            let text = String::from_utf8_lossy(&printed).to_string();
            let missing = case.lines.iter().find(|line| !text.lines().any(|l| l == **line));
            tally.check(&format!("{}, {who}", case.name), missing.map(|line| format!("no line '{line}'")));
        }
    }
    tally.done(all);
}

fn random_days(options: &Options, all: &mut (u64, u64)) {
    let closed_below = if options.export.is_some() { options.closed * 2 } else { 0 };
    let results = for_each(options.days, |number| {
        let input = days::input(options.seed, number);
        let (expected, day) = profile_input(&input);
        let got = product_listing(&input);
        let too_fast = day.closed.as_ref().map(|(p, _)| p.too_fast > 0);
        let exported = if number < closed_below { export(number, &day, &input, &got) } else { None };
        let pieces = difference(&expected, &by_segments(&input));
        (difference(&expected, &got), pieces, too_fast, cover(&expected, &day), exported)
    });
    let mut listings = Tally::new(if LINKED { "random days, in this process" } else { "random days, listing program" });
    let mut plain = Tally::new("random days, plain Rust by segments");
    let mut speed = Tally::new("no second moves further than the rate in force");
    let mut coverage = Coverage::new();
    let mut text = String::new();
    let mut written = 0;
    for (number, (difference, pieces, too_fast, seen, exported)) in results.into_iter().enumerate() {
        listings.check(&format!("day {number}"), difference);
        plain.check(&format!("day {number}"), pieces);
        if let Some(wrong) = too_fast {
            speed.check(&format!("day {number}"), wrong.then(|| "moves too far".to_string()));
        }
        for what in seen {
            *coverage.entry(what).or_default() += 1;
        }
        if let Some(day) = exported.filter(|_| written < options.closed) {
            text.push_str(&day);
            written += 1;
        }
    }
    listings.done(all);
    plain.done(all);
    speed.done(all);
    if options.days >= 5_000 {
        let mut covered = Tally::new("cases that the random days must reach");
        for what in MUST_BE_COVERED {
            let never = !coverage.contains_key(what);
            covered.check(what, never.then(|| "never met".to_string()));
        }
        covered.done(all);
    }
    let list: Vec<String> = coverage.iter().map(|(what, count)| format!("{what}: {count}")).collect();
    println!("days with: {}", list.join("; "));
    if let Some(file) = &options.export {
        std::fs::write(file, text).expect("export");
    }
}

/// One kind of input of a program, on a seed of its own.
fn programs(
    name: &str,
    program: &Path,
    count: u64,
    input: impl Fn(u64) -> Vec<u8> + Sync,
    expected: impl Fn(&[u8]) -> Vec<u8> + Sync,
    all: &mut (u64, u64),
) {
    let results = for_each(count, |number| {
        let input = input(number);
        difference(&expected(&input), &run_program(program, &input))
    });
    let mut tally = Tally::new(name);
    for (number, difference) in results.into_iter().enumerate() {
        tally.check(&format!("number {number}"), difference);
    }
    tally.done(all);
}

fn show(options: &Options, number: u64) {
    let input = days::input(options.seed, number);
    let (expected, day) = profile_input(&input);
    println!("{:#?}\n{:#?}\n{:#?}", day.unit, day.opening, day.instructions);
    println!("expected:\n{}", String::from_utf8_lossy(&expected));
    println!("product:\n{}", String::from_utf8_lossy(&product_listing(&input)));
}

fn main() {
    let options = options();
    PROFILER.set(options.profiler.clone()).unwrap();
    if let Some(number) = options.show {
        return show(&options, number);
    }
    let mut all = (0, 0);
    vectors(&options, &mut all);
    paper_cases(&options, &mut all);
    let limits = cases::limits();
    let limit = |number: u64| limits[number as usize].clone();
    programs("limits of the records", &options.profiler, limits.len() as u64, limit, |i| reference::profiler(i), &mut all);
    let orders = cases::orders();
    let order = |number: u64| orders[number as usize].clone();
    programs("orders of the records", &options.calls, orders.len() as u64, order, |i| calls(i), &mut all);
    random_days(&options, &mut all);
    if LINKED {
        let input = |number| days::input(options.seed + 1_000, number);
        programs("listing program", &options.profiler, options.runs, input, |i| reference::profiler(i), &mut all);
    }
    let lists = |number| days::calls(options.seed + 2_000, number);
    programs("lists of calls", &options.calls, options.lists, lists, |i| calls(i), &mut all);
    println!("compare: {} passed, {} failed", all.0, all.1);
    std::process::exit((all.1 > 0) as i32);
}
