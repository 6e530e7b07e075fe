//! The day: taking a record, asking for a listing, and every refusal in the paper's order.

use crate::profile::{listing, profile, Profile};
use crate::records::*;
use crate::GRAINS;

#[derive(Clone, Debug, Default)]
pub struct Day {
    pub unit: Option<Unit>,
    pub opening: Option<Opening>,
    pub instructions: Vec<Instruction>,
    pub closed: Option<(Profile, Vec<u8>)>, // and the printed day
}

impl Day {
    /// Takes the record at the front of `input`: the bytes used, or a refusal, which changes nothing.
    pub fn take(&mut self, input: &[u8]) -> Result<usize, u32> {
        let kind = *input.first().ok_or(2u32)?;
        let length = body_length(kind).ok_or(1u32)?;
        let body = input.get(1..1 + length).ok_or(2u32)?;
        if self.closed.is_some() {
            return Err(24);
        }
        match kind {
            UNIT => self.take_unit(body)?,
            OPENING => self.take_opening(body)?,
            INSTRUCTION => self.take_instruction(body)?,
            _ => self.close()?,
        }
        Ok(1 + length)
    }

    fn take_unit(&mut self, body: &[u8]) -> Result<(), u32> {
        if self.unit.is_some() {
            return Err(20);
        }
        self.unit = Some(read_unit(body)?);
        Ok(())
    }

    fn take_opening(&mut self, body: &[u8]) -> Result<(), u32> {
        if self.opening.is_some() {
            return Err(20);
        }
        let unit = self.unit.as_ref().ok_or(21u32)?;
        let opening = read_opening(body)?;
        let above = opening.level > unit.short_term_maximum * GRAINS || opening.target > unit.short_term_maximum;
        if above || (opening.seconds_off > 0 && opening.level > 0) {
            return Err(22);
        }
        self.opening = Some(opening);
        Ok(())
    }

    fn take_instruction(&mut self, body: &[u8]) -> Result<(), u32> {
        if self.unit.is_none() {
            return Err(21);
        }
        if self.instructions.len() >= 40 {
            return Err(23);
        }
        self.instructions.push(read_instruction(body)?);
        Ok(())
    }

    fn close(&mut self) -> Result<(), u32> {
        let (Some(unit), Some(opening)) = (&self.unit, &self.opening) else {
            return Err(25);
        };
        let profile = profile(unit, opening, &self.instructions);
        if profile.quantities.iter().any(|&q| q > unit.short_term_maximum) {
            return Err(27);
        }
        let printed = listing(&profile);
        self.closed = Some((profile, printed));
        Ok(())
    }

    /// Writes the printed day to the front of `out`: the bytes written, or a refusal, which writes nothing.
    pub fn list(&self, out: &mut [u8]) -> Result<usize, u32> {
        let (_, printed) = self.closed.as_ref().ok_or(25u32)?;
        out.get_mut(..printed.len()).ok_or(26u32)?.copy_from_slice(printed);
        Ok(printed.len())
    }
}

/// The listing program: what it prints for these bytes of standard input, and the day it leaves.
pub fn profile_input(input: &[u8]) -> (Vec<u8>, Day) {
    let mut day = Day::default();
    let mut rest = input;
    loop {
        match day.take(rest) {
            Err(refusal) => return (format!("X {refusal}\n").into_bytes(), day),
            Ok(used) => rest = &rest[used..],
        }
        if let Some((_, printed)) = &day.closed {
            return (printed.clone(), day);
        }
    }
}

/// What the listing program prints.
pub fn profiler(input: &[u8]) -> Vec<u8> {
    profile_input(input).0
}
