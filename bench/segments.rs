//! The same day in plain Rust, by segments and without an allocation: what the benchmark measures the product against.
//! Each course is worked out piece by piece; a running sum of twice the area is noted at each half-hour boundary; the listing
//! goes straight into the lent buffer. It has to agree with the second implementation on every vector and random day.

const DAY: u32 = 86_400;
const HALF_HOUR: u32 = 1_800;
const GRAINS: u32 = 60;
const MOST_INSTRUCTIONS: usize = 40;
const MOST_SEGMENTS: usize = 41 * 32;
pub const LONGEST_LISTING: usize = 46_080;

const TRIP: u8 = 1;
const MWOF: u8 = 2;
const MXON: u8 = 3;
const SYNC: u8 = 4;
const MXOF: u8 = 5;
const DESY: u8 = 6;
const FAIL: u8 = 7;

// ---- records; levels are kept in grains, holds and boundaries in seconds

#[derive(Clone, Copy, Default)]
struct Column {
    block_load: u32,
    rates: [u32; 3],
    breaks: [u32; 2],
    triggers: [u32; 2],
    holds: [u32; 2],
}

#[derive(Clone, Copy, Default)]
struct Unit {
    capacity: u32,
    short_term_maximum: u32,
    msg: u32,
    hot: u32,
    warm: u32,
    columns: [Column; 3],
    up_rates: [u32; 5],
    up_breaks: [u32; 4],
    dwell_triggers: [u32; 3],
    dwell_holds: [u32; 3],
    down_rates: [u32; 5],
    down_breaks: [u32; 4],
    deload_rates: [u32; 2],
    deload_break: u32,
}

#[derive(Clone, Copy, Default)]
struct Opening {
    level: u32,
    target: u32, // grains
    heat: u32,
    seconds_off: u32,
}

#[derive(Clone, Copy, Default)]
struct Instruction {
    effective: u32,
    issue: i32,
    code: u8,
    level: u32, // kW as given
    up_rate: u32,
    down_rate: u32,
}

#[inline]
fn word(bytes: &[u8], offset: usize) -> u32 {
    u32::from_be_bytes([bytes[offset], bytes[offset + 1], bytes[offset + 2], bytes[offset + 3]])
}

/// Least and most value of the 62 numbers.
const RANGES: [(u32, u32); 62] = {
    const LEVEL: (u32, u32) = (0, 2_000_000);
    const RATE: (u32, u32) = (1, 200_000);
    const MINUTES: (u32, u32) = (0, 1_440);
    let mut ranges = [LEVEL; 62];
    let mut i = 0;
    while i < 62 {
        ranges[i] = match i {
            0..=2 => (1, 2_000_000),
            3..=4 => (0, 100_000),
            6..=8 | 16..=18 | 26..=28 | 35..=39 | 50..=54 | 59..=60 => RATE,
            13..=14 | 23..=24 | 33..=34 | 47..=49 => MINUTES,
            _ => LEVEL,
        };
        i += 1;
    }
    ranges
};

fn read_unit(body: &[u8]) -> Result<Unit, u32> {
    let mut n = [0u32; 62];
    let mut in_range = true;
    for i in 0..62 {
        n[i] = word(body, 4 * i);
        in_range &= n[i].wrapping_sub(RANGES[i].0) <= RANGES[i].1 - RANGES[i].0;
    }
    if !in_range {
        return Err(3);
    }
    let mut disagree = n[1] < n[0] || n[2] > n[0] || n[3] > n[4];
    for c in [5, 15, 25] {
        disagree |= n[c] > n[2] || n[c + 4] > n[c + 5];
    }
    for i in [40, 41, 42, 55, 56, 57] {
        disagree |= n[i] > n[i + 1];
    }
    if disagree {
        return Err(4);
    }
    let column = |c: usize| Column {
        block_load: n[c] * GRAINS,
        rates: [n[c + 1], n[c + 2], n[c + 3]],
        breaks: [n[c + 4] * GRAINS, n[c + 5] * GRAINS],
        triggers: [n[c + 6] * GRAINS, n[c + 7] * GRAINS],
        holds: [n[c + 8] * 60, n[c + 9] * 60],
    };
    Ok(Unit {
        capacity: n[0],
        short_term_maximum: n[1],
        msg: n[2] * GRAINS,
        hot: n[3] * 60,
        warm: n[4] * 60,
        columns: [column(5), column(15), column(25)],
        up_rates: std::array::from_fn(|i| n[35 + i]),
        up_breaks: std::array::from_fn(|i| n[40 + i] * GRAINS),
        dwell_triggers: std::array::from_fn(|i| n[44 + i] * GRAINS),
        dwell_holds: std::array::from_fn(|i| n[47 + i] * 60),
        down_rates: std::array::from_fn(|i| n[50 + i]),
        down_breaks: std::array::from_fn(|i| n[55 + i] * GRAINS),
        deload_rates: [n[59], n[60]],
        deload_break: n[61] * GRAINS,
    })
}

fn read_opening(unit: &Unit, body: &[u8]) -> Result<Opening, u32> {
    let (level, target, heat, seconds_off) = (word(body, 0), word(body, 4), word(body, 8), word(body, 12));
    if level > 120_000_000 || target > 2_000_000 || heat.wrapping_sub(1) > 2 || seconds_off > 10_000_000 {
        return Err(5);
    }
    let most = unit.short_term_maximum;
    if level > most * GRAINS || target > most || (seconds_off > 0 && level > 0) {
        return Err(22);
    }
    Ok(Opening { level, target: target * GRAINS, heat, seconds_off })
}

fn read_instruction(body: &[u8]) -> Result<Instruction, u32> {
    let one = Instruction {
        effective: word(body, 0),
        issue: word(body, 4) as i32,
        code: body[8],
        level: word(body, 9),
        up_rate: word(body, 13),
        down_rate: word(body, 17),
    };
    if !(TRIP..=FAIL).contains(&one.code) {
        return Err(6);
    }
    if one.effective >= DAY {
        return Err(7);
    }
    if one.issue < -604_800 || one.issue > 604_800 {
        return Err(8);
    }
    let most = if one.code == MWOF { (2_000_000, 200_000) } else { (0, 0) };
    if one.level > most.0 || one.up_rate > most.1 || one.down_rate > most.1 {
        return Err(9);
    }
    Ok(one)
}

// ---- which instructions are kept

#[derive(Clone, Copy, Default)]
struct Kept {
    index: u8,
    code: u8,
    effective: u32,
    acting: u32,
    level: u32,
    up_rate: u32,
    down_rate: u32,
}

/// Steps 1 and 2 for a group in order of entry.
fn used_of_group(all: &[Instruction], group: &[u32], fates: &mut [u8; MOST_INSTRUCTIONS]) -> Kept {
    let at = |key: u32| (key & 63) as usize;
    let mut latest = i32::MIN;
    for &key in group {
        latest = latest.max(all[at(key)].issue);
    }
    let mut of_code = [u8::MAX; 8];
    for &key in group {
        let i = at(key);
        let one = &all[i];
        if one.issue != latest {
            fates[i] = 1;
            continue;
        }
        fates[i] = 2;
        let best = &mut of_code[one.code as usize];
        if *best == u8::MAX || (one.code == MWOF && one.level > all[*best as usize].level) {
            *best = i as u8;
        }
    }
    let mut rank = TRIP as usize;
    while of_code[rank] == u8::MAX {
        rank += 1;
    }
    let highest = of_code[rank];
    let mut carrier = highest;
    if rank == MWOF as usize {
        if of_code[SYNC as usize] != u8::MAX {
            carrier = of_code[SYNC as usize];
        } else if of_code[DESY as usize] != u8::MAX {
            carrier = of_code[DESY as usize];
        }
    }
    let (given, one) = (&all[highest as usize], &all[carrier as usize]);
    let lag = if matches!(one.code, MWOF | MXON | MXOF | DESY) { 120 } else { 0 };
    Kept {
        index: carrier,
        code: one.code,
        effective: one.effective,
        acting: one.effective + lag,
        level: given.level,
        up_rate: given.up_rate,
        down_rate: given.down_rate,
    }
}

/// The instructions that act, in order; the fates of the others.
fn validate(all: &[Instruction], fates: &mut [u8; MOST_INSTRUCTIONS], kept: &mut [Kept; MOST_INSTRUCTIONS]) -> usize {
    let mut order = [0u32; MOST_INSTRUCTIONS]; // effective time, then order of entry
    for (i, one) in all.iter().enumerate() {
        order[i] = one.effective << 6 | i as u32;
    }
    let order = &mut order[..all.len()];
    order.sort_unstable();
    let mut count = 0;
    let mut from = 0;
    while from < order.len() {
        let mut to = from + 1;
        while to < order.len() && order[to] >> 6 == order[from] >> 6 {
            to += 1;
        }
        let next = used_of_group(all, &order[from..to], fates);
        from = to;
        if next.code == FAIL {
            fates[next.index as usize] = 5;
            if let Some(sync) = kept[..count].iter().rposition(|k| k.code == SYNC) {
                if next.effective - kept[sync].effective <= 3_600 {
                    for void in &kept[sync..count] {
                        fates[void.index as usize] = 4;
                    }
                    count = sync;
                }
            }
        } else if matches!(next.code, SYNC | DESY | TRIP) && count > 0 && kept[count - 1].code == next.code {
            fates[next.index as usize] = 3;
        } else {
            kept[count] = next;
            count += 1;
        }
    }
    // From the back: overtaken by the earliest acting time of those behind. The others end up in front.
    let mut earliest = u32::MAX;
    for i in (0..count).rev() {
        let one = kept[i];
        fates[one.index as usize] = match one.acting {
            acting if earliest <= acting => 6,
            acting if acting >= DAY => 8,
            _ => 0,
        };
        earliest = earliest.min(one.acting);
    }
    let mut acting = 0;
    for i in 0..count {
        if fates[kept[i].index as usize] == 0 {
            kept[acting] = kept[i];
            acting += 1;
        }
    }
    acting
}

// ---- a course, piece by piece

#[derive(Clone, Copy, Default)]
struct Segment {
    from: u32,
    to: u32,
    first: u32,
    last: u32,
}

/// A stop: its way from the start, and the seconds of hold. At most 13.
struct Stops {
    stops: [(u32, u32); 13],
    count: usize,
}

impl Stops {
    #[inline]
    fn add(&mut self, way: u32, hold: u32) {
        let mut at = self.count;
        while at > 0 && self.stops[at - 1].0 > way {
            at -= 1;
        }
        if at > 0 && self.stops[at - 1].0 == way {
            self.stops[at - 1].1 += hold;
            return;
        }
        self.stops.copy_within(at..self.count, at + 1);
        self.stops[at] = (way, hold);
        self.count += 1;
    }
}

struct Rates {
    up: [u32; 5],
    down: [u32; 5],
}

/// A straight piece: each second moves the level by `slope`.
#[derive(Clone, Copy)]
struct Piece {
    from: u32,
    to: u32,
    first: u32,
    slope: i32,
}

impl Piece {
    #[inline]
    fn level(&self, time: u32) -> u32 {
        (self.first as i32 + self.slope * (time - self.from) as i32) as u32
    }
    /// Twice its area up to a second.
    #[inline]
    fn doubled(&self, time: u32) -> u64 {
        (time - self.from) as u64 * (self.first as u64 + self.level(time) as u64)
    }
}

/// What comes next in a course.
#[derive(Clone, Copy)]
enum Next {
    Run,
    Short(u32),
    Hold(u32),
    Rest,
}

/// A course under way: it yields its pieces one after the other, as far as they are asked for.
struct Course<'a> {
    unit: &'a Unit,
    heat: u32,
    rates: Rates,
    rising: bool,
    start: u32,
    stops: Stops,
    reached: usize,
    next: Next,
    piece: Piece, // the one under way
}

impl<'a> Course<'a> {
    fn new(unit: &'a Unit, time: u32, level: u32, target: u32, heat: u32, rates: Rates) -> Course<'a> {
        let stops = stops(unit, level, target, heat);
        let next = if stops.count > 0 { Next::Run } else { Next::Rest };
        let piece = Piece { from: time, to: time, first: level, slope: 0 };
        let mut course = Course { unit, heat, rates, rising: target > level, start: level, stops, reached: 0, next, piece };
        course.advance();
        course
    }

    #[inline]
    fn rate(&self, level: u32) -> u32 {
        let unit = self.unit;
        if self.rising {
            if level < unit.msg {
                let column = &unit.columns[self.heat as usize - 1];
                column.rates[column.breaks.iter().map(|&b| (b <= level) as usize).sum::<usize>()]
            } else {
                self.rates.up[unit.up_breaks.iter().map(|&b| (b <= level) as usize).sum::<usize>()]
            }
        } else if level > unit.msg {
            self.rates.down[unit.down_breaks.iter().map(|&b| (b < level) as usize).sum::<usize>()]
        } else {
            unit.deload_rates[(unit.deload_break < level) as usize]
        }
    }

    /// On to the next piece; one of length 0 is never left under way, for a rest is without end.
    fn advance(&mut self) {
        let sign = if self.rising { 1 } else { -1 };
        let time = self.piece.to;
        let level = self.piece.level(time);
        let (seconds, slope) = match self.next {
            Next::Run => {
                let way = self.stops.stops[self.reached].0 - level.abs_diff(self.start);
                let rate = self.rate(level);
                let (full, short) = (way / rate, way % rate);
                if full > 0 && short > 0 {
                    self.next = Next::Short(short);
                } else {
                    self.next = self.at_stop();
                }
                if full > 0 {
                    (full, sign * rate as i32)
                } else {
                    (1, sign * short as i32)
                }
            }
            Next::Short(short) => {
                self.next = self.at_stop();
                (1, sign * short as i32)
            }
            Next::Hold(hold) => {
                self.next = self.after_stop();
                (hold, 0)
            }
            Next::Rest => (u32::MAX - time, 0),
        };
        self.piece = Piece { from: time, to: time + seconds, first: level, slope };
    }

    #[inline]
    fn at_stop(&mut self) -> Next {
        match self.stops.stops[self.reached].1 {
            0 => self.after_stop(),
            hold => Next::Hold(hold),
        }
    }

    #[inline]
    fn after_stop(&mut self) -> Next {
        self.reached += 1;
        if self.reached < self.stops.count {
            Next::Run
        } else {
            Next::Rest
        }
    }
}

fn stops(unit: &Unit, start: u32, target: u32, heat: u32) -> Stops {
    let rising = target > start;
    let distance = target.abs_diff(start);
    let mut out = Stops { stops: [(0, 0); 13], count: 0 };
    if distance == 0 {
        return out;
    }
    let mut add = |level: u32, hold: u32| {
        let past = if rising { level > start } else { level < start };
        let way = level.abs_diff(start);
        if past && way < distance {
            out.add(way, hold);
        }
    };
    add(unit.msg, 0);
    if rising {
        let column = &unit.columns[heat as usize - 1];
        for i in 0..2 {
            if column.breaks[i] < unit.msg {
                add(column.breaks[i], 0);
            }
            if column.holds[i] > 0 && column.triggers[i] < unit.msg {
                add(column.triggers[i], column.holds[i]);
            }
        }
        for b in unit.up_breaks {
            if b >= unit.msg {
                add(b, 0);
            }
        }
    } else {
        for b in unit.down_breaks {
            if b > unit.msg {
                add(b, 0);
            }
        }
        if unit.deload_break <= unit.msg {
            add(unit.deload_break, 0);
        }
    }
    for i in 0..3 {
        if unit.dwell_holds[i] > 0 && unit.dwell_triggers[i] >= unit.msg {
            add(unit.dwell_triggers[i], unit.dwell_holds[i]);
        }
    }
    out.add(distance, 0);
    out
}

/// What the pieces leave behind: the S lines, and a running sum of twice the area noted at each half-hour boundary.
struct Record<'a> {
    segments: &'a mut [Segment; MOST_SEGMENTS],
    count: usize,
    sum: u64,
    notes: [u64; 49],
    boundary: u32, // number of the next boundary
    zero_since: i32,
}

impl Record<'_> {
    /// Lays down a piece up to `to`.
    #[inline]
    fn piece(&mut self, piece: &Piece, to: u32) {
        if to == piece.from {
            return;
        }
        while self.boundary * HALF_HOUR <= to {
            self.notes[self.boundary as usize] = self.sum + piece.doubled(self.boundary * HALF_HOUR);
            self.boundary += 1;
        }
        self.sum += piece.doubled(to);
        let last = piece.level(to);
        if last == 0 && piece.first > 0 {
            self.zero_since = to as i32;
        }
        self.segments[self.count] = Segment { from: piece.from, to, first: piece.first, last };
        self.count += 1;
    }

    /// Lays down every piece of the course that ends by `time`.
    #[inline]
    fn up_to(&mut self, course: &mut Course, time: u32) {
        while course.piece.to <= time {
            self.piece(&course.piece, course.piece.to);
            course.advance();
        }
    }
}

// ---- the day

pub struct Day {
    stage: u8, // 0 no unit, 1 no opening, 2 open, 3 closed
    unit: Unit,
    opening: Opening,
    instructions: [Instruction; MOST_INSTRUCTIONS],
    count: usize,
    fates: [u8; MOST_INSTRUCTIONS],
    segments: [Segment; MOST_SEGMENTS],
    segment_count: usize,
    quantities: [u32; 48],
    closing: [u32; 4],
}

impl Default for Day {
    fn default() -> Day {
        Day::new()
    }
}

impl Day {
    pub fn new() -> Day {
        Day {
            stage: 0,
            unit: Unit::default(),
            opening: Opening::default(),
            instructions: [Instruction::default(); MOST_INSTRUCTIONS],
            count: 0,
            fates: [0; MOST_INSTRUCTIONS],
            segments: [Segment::default(); MOST_SEGMENTS],
            segment_count: 0,
            quantities: [0; 48],
            closing: [0; 4],
        }
    }

    /// An empty day again, without clearing what is not read.
    pub fn reset(&mut self) {
        self.stage = 0;
        self.count = 0;
    }

    pub fn closed(&self) -> bool {
        self.stage == 3
    }

    pub fn take(&mut self, input: &[u8]) -> Result<usize, u32> {
        let Some(&kind) = input.first() else { return Err(2) };
        let length = match kind {
            1 => 249,
            2 => 17,
            3 => 22,
            4 => 1,
            _ => return Err(1),
        };
        if input.len() < length {
            return Err(2);
        }
        if self.stage == 3 {
            return Err(24);
        }
        let body = &input[1..length];
        match kind {
            1 => {
                if self.stage > 0 {
                    return Err(20);
                }
                self.unit = read_unit(body)?;
                self.stage = 1;
            }
            2 => {
                match self.stage {
                    0 => return Err(21),
                    1 => self.opening = read_opening(&self.unit, body)?,
                    _ => return Err(20),
                }
                self.stage = 2;
            }
            3 => {
                if self.stage == 0 {
                    return Err(21);
                }
                if self.count == MOST_INSTRUCTIONS {
                    return Err(23);
                }
                self.instructions[self.count] = read_instruction(body)?;
                self.count += 1;
            }
            _ => {
                if self.stage < 2 {
                    return Err(25);
                }
                self.close()?;
                self.stage = 3;
            }
        }
        Ok(length)
    }

    fn close(&mut self) -> Result<(), u32> {
        let unit = &self.unit;
        let mut kept = [Kept::default(); MOST_INSTRUCTIONS];
        let acting = validate(&self.instructions[..self.count], &mut self.fates, &mut kept);
        let opening = &self.opening;
        let mut record = Record {
            segments: &mut self.segments,
            count: 0,
            sum: 0,
            notes: [0; 49],
            boundary: 1,
            zero_since: -(opening.seconds_off as i32),
        };
        let (mut heat, mut target, mut ordinary, mut maximised) = (opening.heat, opening.target, opening.target, false);
        let step = |level: u32, target: u32, heat: u32| match level {
            0 => unit.columns[heat as usize - 1].block_load.min(target),
            _ => level,
        };
        let rates = Rates { up: unit.up_rates, down: unit.down_rates };
        let mut course = Course::new(unit, 0, step(opening.level, target, heat), target, heat, rates);
        for one in &kept[..acting] {
            record.up_to(&mut course, one.acting);
            let mut level = course.piece.level(one.acting);
            let off = level == 0;
            let without_effect = match one.code {
                MWOF => off && one.level == 0,
                DESY | TRIP => off,
                MXON => off || maximised,
                SYNC => !off,
                _ => !maximised,
            };
            if without_effect {
                self.fates[one.index as usize] = 7;
                continue;
            }
            record.piece(&course.piece, one.acting);
            let mut rates = Rates {
                up: if one.up_rate > 0 { [one.up_rate; 5] } else { unit.up_rates },
                down: if one.down_rate > 0 { [one.down_rate; 5] } else { unit.down_rates },
            };
            target = match one.code {
                MWOF => {
                    heat = if off { 3 } else { heat };
                    ordinary = one.level.min(unit.capacity) * GRAINS;
                    ordinary
                }
                SYNC => {
                    let seconds_off = ((one.acting as i32 - record.zero_since) as u32).min(10_000_000);
                    heat = 1 + (seconds_off > unit.hot) as u32 + (seconds_off > unit.warm) as u32;
                    ordinary = (one.level * GRAINS).max(unit.msg).min(unit.capacity * GRAINS);
                    ordinary
                }
                DESY => 0,
                TRIP => {
                    level = 0;
                    record.zero_since = one.acting as i32;
                    0
                }
                MXON => {
                    rates.up = [unit.up_rates[4]; 5];
                    unit.short_term_maximum * GRAINS
                }
                _ => {
                    rates.down = [unit.down_rates[0]; 5];
                    ordinary
                }
            };
            maximised = one.code == MXON;
            course = Course::new(unit, one.acting, step(level, target, heat), target, heat, rates);
        }
        record.up_to(&mut course, DAY);
        record.piece(&course.piece, DAY);
        let level = course.piece.level(DAY);

        let mut highest = 0;
        for i in 0..48 {
            let doubled = record.notes[i + 1] - record.notes[i];
            self.quantities[i] = ((doubled + 108_000) / 216_000) as u32;
            highest = highest.max(self.quantities[i]);
        }
        if highest > unit.short_term_maximum {
            return Err(27);
        }
        let seconds_off = if level == 0 { ((DAY as i32 - record.zero_since) as u32).min(10_000_000) } else { 0 };
        self.closing = [level, target / GRAINS, heat, seconds_off];
        self.segment_count = record.count;
        Ok(())
    }

    /// The listing at the front of a lent slice.
    pub fn list(&self, out: &mut [u8]) -> Result<usize, u32> {
        if self.stage < 3 {
            return Err(25);
        }
        if out.len() >= LONGEST_LISTING {
            return Ok(self.write(out));
        }
        let mut room = [0; LONGEST_LISTING];
        let count = self.write(&mut room);
        if count > out.len() {
            return Err(26);
        }
        out[..count].copy_from_slice(&room[..count]);
        Ok(count)
    }

    fn write(&self, out: &mut [u8]) -> usize {
        let mut lines = Lines { out, at: 0 };
        for i in 0..self.count {
            lines.line(b'F', &[i as u32 + 1, self.fates[i] as u32]);
        }
        for s in &self.segments[..self.segment_count] {
            lines.line(b'S', &[s.from, s.to, s.first, s.last]);
        }
        let mut first = 0;
        while first < 48 {
            let mut next = first + 1;
            while next < 48 && self.quantities[next] == self.quantities[first] {
                next += 1;
            }
            lines.line(b'Q', &[first as u32 + 1, next as u32, self.quantities[first]]);
            first = next;
        }
        lines.line(b'E', &self.closing);
        lines.at
    }
}

// ---- lines

struct Lines<'a> {
    out: &'a mut [u8],
    at: usize,
}

const PAIRS: [u8; 200] = {
    let mut pairs = [0; 200];
    let mut i = 0;
    while i < 100 {
        pairs[2 * i] = b'0' + (i / 10) as u8;
        pairs[2 * i + 1] = b'0' + (i % 10) as u8;
        i += 1;
    }
    pairs
};

impl Lines<'_> {
    #[inline]
    fn line(&mut self, letter: u8, numbers: &[u32]) {
        self.out[self.at] = letter;
        self.at += 1;
        for &n in numbers {
            self.number(n);
        }
        self.out[self.at] = b'\n';
        self.at += 1;
    }

    /// A blank and the decimal number, straight into their place.
    #[inline]
    fn number(&mut self, mut n: u32) {
        let digits = width(n);
        let slot = &mut self.out[self.at..self.at + 1 + digits];
        self.at += 1 + digits;
        slot[0] = b' ';
        let mut from = 1 + digits;
        while n >= 10 {
            let pair = (n % 100) as usize * 2;
            n /= 100;
            from -= 2;
            slot[from..from + 2].copy_from_slice(&PAIRS[pair..pair + 2]);
        }
        if from == 2 {
            slot[1] = b'0' + n as u8;
        }
    }
}

/// How many digits a number has: few comparisons for the usual widths.
#[inline]
fn width(n: u32) -> usize {
    if n < 100_000 {
        if n < 1_000 {
            if n < 10 {
                1
            } else if n < 100 {
                2
            } else {
                3
            }
        } else if n < 10_000 {
            4
        } else {
            5
        }
    } else if n < 10_000_000 {
        if n < 1_000_000 {
            6
        } else {
            7
        }
    } else if n < 100_000_000 {
        8
    } else if n < 1_000_000_000 {
        9
    } else {
        10
    }
}

/// What the listing program prints for these records, into a lent slice of 46,080 bytes; the number of bytes.
pub fn listing(day: &mut Day, records: &[u8], out: &mut [u8]) -> usize {
    day.reset();
    let mut rest = records;
    while !day.closed() {
        match day.take(rest) {
            Ok(used) => rest = &rest[used..],
            Err(refusal) => {
                let text = format!("X {refusal}\n");
                out[..text.len()].copy_from_slice(text.as_bytes());
                return text.len();
            }
        }
    }
    day.list(out).expect("the slice is long enough")
}
