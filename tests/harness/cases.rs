//! Fixed cases: those that the paper gives under "Try", with what it says of them, and every limit and order of records.

use crate::days::{instruction_record, opening_record, ranges, set, unit_record};
use reference::records::*;

// ---- the paper's cases

/// The unit of the paper's listing.
pub fn listed_unit() -> Unit {
    let column = Column { rates: [1; 3], ..Column::default() };
    Unit {
        capacity: 400_000,
        short_term_maximum: 400_000,
        msg: 100_000,
        columns: [column; 3],
        up_rates: [1_000, 1, 1, 1, 1],
        up_breaks: [400_000; 4],
        down_rates: [1; 5],
        deload_rates: [1; 2],
        ..Unit::default()
    }
}

fn listed_opening() -> Opening {
    Opening { level: 6_000_000, target: 100_000, heat: 1, seconds_off: 0 }
}

fn given(code: Code, effective: u64, level: u64) -> Instruction {
    Instruction { effective, issue: 0, code, level, up_rate: 0, down_rate: 0 }
}

fn day(unit: &Unit, opening: &Opening, instructions: &[Instruction]) -> Vec<u8> {
    let mut out = unit_record(unit);
    out.extend(opening_record(opening));
    out.extend(instructions.iter().flat_map(instruction_record));
    out.push(CLOSE);
    out
}

pub struct Case {
    pub name: &'static str,
    pub input: Vec<u8>,
    pub lines: Vec<&'static str>, // lines that the listing must have
}

/// The cases under "Try". Where the paper gives only a fate or a quantity, only that line is required.
pub fn paper_cases() -> Vec<Case> {
    use Code::*;
    let unit = listed_unit();
    let open = listed_opening();
    let low = Opening { level: 60, target: 1, heat: 1, seconds_off: 0 };
    let off = Opening { level: 0, target: 0, heat: 1, seconds_off: 0 };
    let fast = Unit { up_rates: [7_000; 5], ..unit };
    let with = |opening: &Opening, list: &[(Code, u64, u64)]| {
        let list: Vec<Instruction> = list.iter().map(|&(code, at, level)| given(code, at, level)).collect();
        day(&unit, opening, &list)
    };
    let case = |name, input, lines: &[&'static str]| Case { name, input, lines: lines.to_vec() };
    vec![
        case(
            "the listing",
            with(&open, &[(Mwof, 0, 103_000)]),
            &[
                "F 1 0",
                "S 0 120 6000000 6000000",
                "S 120 300 6000000 6180000",
                "S 300 86400 6180000 6180000",
                "Q 1 1 102650",
                "Q 2 48 103000",
                "E 6180000 103000 1 0",
            ],
        ),
        case("TRIP at 900", with(&low, &[(Trip, 900, 0)]), &["F 1 0", "Q 1 1 1"]),
        case("TRIP at 899", with(&low, &[(Trip, 899, 0)]), &["F 1 0", "Q 1 48 0"]),
        case(
            "FAIL at 7,200",
            with(&open, &[(Sync, 3_600, 0), (Mwof, 5_000, 200_000), (Fail, 7_200, 0)]),
            &["F 1 4", "F 2 4", "F 3 5"],
        ),
        case(
            "FAIL at 7,201",
            with(&off, &[(Sync, 3_600, 0), (Mwof, 5_000, 200_000), (Fail, 7_201, 0)]),
            &["F 1 0", "F 2 0", "F 3 5"],
        ),
        case("TRIP at 220", with(&open, &[(Mwof, 100, 103_000), (Trip, 220, 0)]), &["F 1 6", "F 2 0"]),
        case(
            "TRIP at 221",
            with(&open, &[(Mwof, 100, 103_000), (Trip, 221, 0)]),
            &["F 1 0", "F 2 0", "S 220 221 6000000 6001000"],
        ),
        case(
            "rate 7,000, way 30,000",
            day(&fast, &open, &[given(Mwof, 0, 100_500)]),
            &["S 120 124 6000000 6028000", "S 124 125 6028000 6030000"],
        ),
        case("effective 86,399", with(&open, &[(Trip, 86_399, 0)]), &["F 1 0", "S 86399 86400 0 0"]),
        case("effective 86,400", with(&open, &[(Trip, 86_400, 0)]), &["X 7"]),
        case("MWOF at 86,279", with(&open, &[(Mwof, 86_279, 103_000)]), &["F 1 0", "S 86399 86400 6000000 6001000"]),
        case("MWOF at 86,280", with(&open, &[(Mwof, 86_280, 103_000)]), &["F 1 8", "S 0 86400 6000000 6000000"]),
    ]
}

// ---- limits

/// Every number at the ends of its range and past them, every pair of figures that must agree, every kind and code, and an
/// input cut short at every byte.
pub fn limits() -> Vec<Vec<u8>> {
    let unit = unit_record(&listed_unit());
    let opening = opening_record(&listed_opening());
    let one = instruction_record(&given(Code::Mwof, 100, 200_000));
    let records = [unit, opening, one, vec![CLOSE]];
    let mut out = Vec::new();
    let mut with = |at: usize, change: &dyn Fn(&mut Vec<u8>)| {
        let mut changed = records.clone();
        change(&mut changed[at]);
        out.push(changed.concat());
    };
    for at in 0..3 {
        for (offset, least, most) in ranges(records[at][0]) {
            for value in [least - 1, least, least + 1, most - 1, most, most + 1] {
                with(at, &|record| set(record, offset, value));
            }
        }
    }
    for at in 0..4 {
        for kind in 0..=255 {
            with(at, &|record| record[0] = kind);
        }
    }
    for code in 0..=255 {
        with(2, &|record| record[9] = code);
        with(2, &|record| {
            record[9] = code;
            set(record, 10, 0);
        });
        for offset in [14, 18] {
            with(2, &|record| {
                record[9] = code;
                set(record, 10, 0);
                set(record, offset, 1);
            });
        }
    }
    for place in 0..62 {
        for other in 0..62 {
            // One figure of the unit made equal to, or one more than, another: agreement between any two.
            let value = i64::from(u32::from_be_bytes(records[0][1 + 4 * other..5 + 4 * other].try_into().unwrap()));
            if value > 1 {
                with(0, &|record| set(record, 1 + 4 * place, value));
                with(0, &|record| set(record, 1 + 4 * place, value + 1));
            }
        }
    }
    let whole = records.concat();
    out.extend((0..=whole.len()).map(|length| whole[..length].to_vec()));
    out
}

/// All lists of four calls that take a good or a bad record of each kind, each list ended by a listing.
pub fn orders() -> Vec<Vec<u8>> {
    let mut bad_unit = unit_record(&listed_unit());
    set(&mut bad_unit, 1, 0);
    let mut bad_opening = opening_record(&listed_opening());
    set(&mut bad_opening, 9, 0);
    let mut high_opening = opening_record(&listed_opening());
    set(&mut high_opening, 5, 400_001);
    let mut bad_instruction = instruction_record(&given(Code::Trip, 100, 0));
    set(&mut bad_instruction, 1, 86_400);
    let records = [
        unit_record(&listed_unit()),
        opening_record(&listed_opening()),
        instruction_record(&given(Code::Trip, 100, 0)),
        vec![CLOSE],
        bad_unit,
        bad_opening,
        high_opening,
        bad_instruction,
    ];
    let n = records.len();
    (0..n * n * n * n)
        .map(|number| {
            let mut out = Vec::new();
            for place in [1, n, n * n, n * n * n] {
                let record = &records[number / place % n];
                out.push(b'T');
                out.extend((record.len() as u32).to_be_bytes());
                out.extend(record);
            }
            out.extend([b'L', 0, 1, 0, 0]);
            out
        })
        .collect()
}
