//! The day at close: what each instruction does, the operating profile, the quantities, the closing state.

use crate::records::{Code, Instruction, Opening, Unit};
use crate::trajectory::{Course, Motion};
use crate::validation::{validate, Kept};
use crate::{DAY_SECONDS, GRAINS, HALF_HOUR};

/// One S line.
#[derive(Clone, Copy, Debug, PartialEq, Eq)]
pub struct Segment {
    pub from: u64,
    pub to: u64,
    pub first: u64, // grains
    pub last: u64,
}

#[derive(Clone, Debug)]
pub struct Profile {
    pub fates: Vec<u8>,
    pub segments: Vec<Segment>,
    pub quantities: [u64; 48],
    pub level: u64, // closing state
    pub target: u64,
    pub heat: u64,
    pub seconds_off: u64,
    pub courses: Vec<Course>,
    pub too_fast: u64, // seconds that moved the level further than the rate in force
}

/// What is under way in the unit.
struct State<'a> {
    unit: &'a Unit,
    level: u64, // grains
    heat: u64,
    maximised: bool,
    ordinary_target: u64, // kW: of the last MWOF or SYNC with fate 0, or the opening
    zero_since: i64,      // the second from which seconds off count
    courses: Vec<Course>, // the last is under way
}

impl State<'_> {
    fn seconds_off(&self, second: u64) -> u64 {
        ((second as i64 - self.zero_since) as u64).min(10_000_000)
    }

    fn start(&mut self, second: u64, target: u64, up_rates: [u64; 5], down_rates: [u64; 5]) {
        if let Some(last) = self.courses.last_mut() {
            last.end = second;
        }
        let course = Course::new(self.unit, second, self.level, target, self.heat, up_rates, down_rates);
        self.level = course.start;
        self.courses.push(course);
    }

    fn has_no_effect(&self, one: &Kept) -> bool {
        let off = self.level == 0;
        match one.code {
            Code::Mwof => off && one.level == 0,
            Code::Desy | Code::Trip => off,
            Code::Mxon => off || self.maximised,
            Code::Sync => !off,
            Code::Mxof => !self.maximised,
            Code::Fail => true, // never kept
        }
    }

    /// An instruction at its acting second: its fate, 0 or 7.
    fn act(&mut self, one: &Kept) -> u8 {
        if self.has_no_effect(one) {
            return 7;
        }
        let unit = self.unit;
        let mut up_rates = if one.up_rate > 0 { [one.up_rate; 5] } else { unit.up_rates };
        let mut down_rates = if one.down_rate > 0 { [one.down_rate; 5] } else { unit.down_rates };
        let target = match one.code {
            Code::Mwof => {
                if self.level == 0 {
                    self.heat = 3;
                }
                self.ordinary_target = one.level.min(unit.capacity);
                self.ordinary_target
            }
            Code::Sync => {
                let off = self.seconds_off(one.acting);
                self.heat = if off <= unit.hot_boundary * 60 {
                    1
                } else if off <= unit.warm_boundary * 60 {
                    2
                } else {
                    3
                };
                self.ordinary_target = one.level.max(unit.msg).min(unit.capacity);
                self.ordinary_target
            }
            Code::Desy => 0,
            Code::Trip => {
                self.level = 0;
                self.zero_since = one.acting as i64;
                0
            }
            Code::Mxon => {
                up_rates = [unit.up_rates[4]; 5];
                unit.short_term_maximum
            }
            Code::Mxof => {
                down_rates = [unit.down_rates[0]; 5];
                self.ordinary_target
            }
            Code::Fail => unreachable!(),
        };
        self.maximised = one.code == Code::Mxon;
        self.start(one.acting, target, up_rates, down_rates);
        0
    }
}

/// Validation and profiling of a whole day.
pub fn profile(unit: &Unit, opening: &Opening, instructions: &[Instruction]) -> Profile {
    let (acting, mut fates) = validate(instructions);
    let mut state = State {
        unit,
        level: opening.level,
        heat: opening.heat,
        maximised: false,
        ordinary_target: opening.target,
        zero_since: -(opening.seconds_off as i64),
        courses: Vec::new(),
    };
    state.start(0, opening.target, unit.up_rates, unit.down_rates);

    let mut waiting = acting.iter().peekable();
    let mut areas = [0u64; 48]; // twice the recorded area, grain-seconds
    let mut segments: Vec<Segment> = Vec::new();
    let mut label: Option<(usize, Motion, usize)> = None;
    let mut too_fast = 0;

    for second in 0..DAY_SECONDS {
        while let Some(one) = waiting.next_if(|one| one.acting == second) {
            fates[one.index] = Some(state.act(one));
        }
        let at_start = state.level;
        let number = state.courses.len();
        let course = state.courses.last_mut().unwrap();
        let in_force = course.rate_in_force(unit, at_start);
        let (at_end, motion, behind) = course.second(unit, at_start);
        too_fast += (at_start.abs_diff(at_end) > in_force) as u64;

        areas[(second / HALF_HOUR) as usize] += at_start + at_end;
        if at_start > 0 && at_end == 0 {
            state.zero_since = second as i64 + 1;
        }
        state.level = at_end;

        if label == Some((number, motion, behind)) {
            let line = segments.last_mut().unwrap();
            line.to = second + 1;
            line.last = at_end;
        } else {
            segments.push(Segment { from: second, to: second + 1, first: at_start, last: at_end });
            label = Some((number, motion, behind));
        }
    }

    let course = state.courses.last_mut().unwrap();
    course.end = DAY_SECONDS;
    let target = course.target;
    Profile {
        fates: fates.into_iter().map(|f| f.expect("every instruction has a fate")).collect(),
        segments,
        quantities: areas.map(|area| (area + 1_800 * GRAINS) / (3_600 * GRAINS)),
        level: state.level,
        target,
        heat: state.heat,
        seconds_off: if state.level == 0 { state.seconds_off(DAY_SECONDS) } else { 0 },
        courses: state.courses,
        too_fast,
    }
}

/// The printed day.
pub fn listing(profile: &Profile) -> Vec<u8> {
    let mut text = String::new();
    for (i, fate) in profile.fates.iter().enumerate() {
        text += &format!("F {} {}\n", i + 1, fate);
    }
    for s in &profile.segments {
        text += &format!("S {} {} {} {}\n", s.from, s.to, s.first, s.last);
    }
    let mut first = 0;
    for last in 0..48 {
        if last == 47 || profile.quantities[last + 1] != profile.quantities[first] {
            text += &format!("Q {} {} {}\n", first + 1, last + 1, profile.quantities[first]);
            first = last + 1;
        }
    }
    text += &format!("E {} {} {} {}\n", profile.level, profile.target, profile.heat, profile.seconds_off);
    text.into_bytes()
}
