//! Random states of the analyses, states near them, and damaged writings.

use crate::analysis::{Analysis, Pair, Row, Rows, Slots, Types};
use crate::code::Action;
use crate::kinds::{below, Kind};
use crate::random::Random;
use crate::unit::Unit;

/// How a state lies to another one from which it is made.
#[derive(Clone, Copy, Debug, PartialEq, Eq)]
pub enum Near {
    Same,
    /// Above it, and at most a little changed.
    Above,
    /// Below it, and at most a little changed.
    Below,
    /// Alike, but changed anyhow.
    Around,
    /// Made without regard to it.
    Far,
}

const NEAR: [Near; 5] = [Near::Same, Near::Above, Near::Below, Near::Around, Near::Far];

impl Near {
    /// How another part of a pair lies, if one part lies like this.
    fn other_part(self, random: &mut Random) -> Near {
        match random.less_than(4) {
            0 => Near::Same,
            1 => *random.pick(&NEAR),
            _ => self,
        }
    }
}

/// An analysis of which random states are made.
pub trait Sample: Analysis {
    /// A random state that the effect of the instruction accepts more often than not.
    fn fitting(&self, random: &mut Random, instruction: usize) -> Self::State;

    /// A random state that lies like this to the given one.
    fn near(
        &self,
        random: &mut Random,
        instruction: usize,
        state: &Self::State,
        near: Near,
    ) -> Self::State;

    /// Bytes made from the writing of a state, which most often are refused.
    fn damaged(&self, random: &mut Random, state: &Self::State) -> Vec<u8>;
}

impl Sample for Types<'_> {
    fn fitting(&self, random: &mut Random, instruction: usize) -> Vec<Kind> {
        let takes = Action::at(&self.unit, instruction).signature(&self.unit).takes;
        let depth = self.random_depth(random, takes.len());
        let mut state: Vec<Kind> = (0..depth).map(|_| random_kind(random, &self.unit)).collect();
        if random.one_in(9) {
            return state;
        }
        // What is asked for, from the top as far as the operands reach.
        for (kind, &needed) in state.iter_mut().rev().zip(takes.iter().rev()) {
            *kind = match random.less_than(14) {
                0 => *kind,
                1 => kind_above(random, &self.unit, needed), // a near miss
                _ => kind_at_or_below(random, &self.unit, needed),
            };
        }
        state
    }

    fn near(
        &self,
        random: &mut Random,
        instruction: usize,
        state: &Vec<Kind>,
        near: Near,
    ) -> Vec<Kind> {
        let mut state = state.clone();
        if near == Near::Far {
            return self.fitting(random, instruction);
        }
        if near == Near::Same || state.is_empty() {
            return state;
        }
        let chosen = random.less_than(state.len());
        for (place, kind) in state.iter_mut().enumerate() {
            if place == chosen || random.one_in(5) {
                *kind = match near {
                    Near::Above => kind_above(random, &self.unit, *kind),
                    Near::Below => kind_below(random, &self.unit, *kind),
                    _ => match random.less_than(3) {
                        0 => kind_above(random, &self.unit, *kind),
                        1 => kind_below(random, &self.unit, *kind),
                        _ => random_kind(random, &self.unit),
                    },
                };
            }
        }
        state
    }

    fn damaged(&self, random: &mut Random, state: &Vec<Kind>) -> Vec<u8> {
        let mut bytes = self.writing(state);
        match random.less_than(8) {
            0 => bytes.truncate(random.less_than(bytes.len())),
            // Deeper than the head allows, with all kinds that it asks for.
            1 => {
                let over = self.unit.depth() + 1 + random.less_than(3) as u8;
                let mut deep = state.clone();
                deep.resize_with(usize::from(over), || random_kind(random, &self.unit));
                bytes = self.writing(&deep);
            }
            // Deeper than the head allows, with the kinds as they were.
            2 => bytes[0] = *random.pick(&[self.unit.depth() + 1, 17, 127, 128, 255]),
            // A kind too few.
            3 => bytes[0] += 1,
            _ if state.is_empty() => bytes[0] = self.unit.depth() + 1,
            _ => {
                let at = 1 + 2 * random.less_than(state.len());
                let code = *random.pick(&unknown_codes(&self.unit));
                bytes[at..at + 2].copy_from_slice(&code.to_be_bytes());
            }
        }
        bytes
    }
}

impl Types<'_> {
    /// A random depth for an instruction that takes this many operands: most
    /// often there are enough, and often as many as the head allows or one less.
    fn random_depth(&self, random: &mut Random, taken: usize) -> usize {
        let most = usize::from(self.unit.depth());
        let least = taken.min(most);
        match random.less_than(8) {
            0 => random.between(0, most),
            1 => most,
            2 => most.saturating_sub(1).max(least),
            3 | 4 => random.between(least, most),
            _ => random.between(least, most.min(least + 3)),
        }
    }
}

/// Codes that are no kind of a state of types.
fn unknown_codes(unit: &Unit) -> [u16; 7] {
    let classes = unit.class_count() as u16; // at most 256
    [classes, classes + 1, classes + 0x0100, 0x8000, 0xFF00, 0xFFFB, 0xFFFC]
}

/// A random kind of the unit.
fn random_kind(random: &mut Random, unit: &Unit) -> Kind {
    match random.less_than(8) {
        0 | 1 => Kind::Int,
        2 => Kind::Null,
        3 => Kind::Unusable,
        _ => random_class(random, unit),
    }
}

fn random_class(random: &mut Random, unit: &Unit) -> Kind {
    Kind::Class(random.less_than(unit.class_count()) as u16)
}

/// The kind or a random one below it.
fn kind_at_or_below(random: &mut Random, unit: &Unit, kind: Kind) -> Kind {
    if random.one_in(2) {
        kind
    } else {
        kind_below(random, unit, kind)
    }
}

/// A random kind below, another one where there is one.
fn kind_below(random: &mut Random, unit: &Unit, kind: Kind) -> Kind {
    match kind {
        Kind::Int | Kind::Null => kind,
        Kind::Unusable => {
            let class = random_class(random, unit);
            *random.pick(&[Kind::Int, Kind::Null, Kind::Class(0), class])
        }
        Kind::Class(_) if random.one_in(3) => Kind::Null,
        Kind::Class(class) => {
            let lower: Vec<Kind> = (class + 1..unit.class_count() as u16)
                .map(Kind::Class)
                .filter(|&lower| below(unit, lower, kind))
                .collect();
            if lower.is_empty() {
                Kind::Null
            } else {
                *random.pick(&lower)
            }
        }
    }
}

/// A random kind above, another one where there is one.
fn kind_above(random: &mut Random, unit: &Unit, kind: Kind) -> Kind {
    match kind {
        Kind::Int | Kind::Unusable | Kind::Class(0) => Kind::Unusable,
        _ if random.one_in(6) => Kind::Unusable,
        Kind::Null => random_class(random, unit),
        Kind::Class(class) => {
            let parent = unit.parent(usize::from(class));
            if parent != 0 && random.one_in(3) {
                kind_above(random, unit, Kind::Class(parent))
            } else {
                Kind::Class(parent)
            }
        }
    }
}

impl Sample for Slots<'_> {
    fn fitting(&self, random: &mut Random, instruction: usize) -> u32 {
        let state = match random.less_than(8) {
            0 => self.start(),
            1 => self.all(),
            2 => 0,
            3 => random.number() as u32 & random.number() as u32 & self.all(),
            _ => random.number() as u32 & self.all(),
        };
        match Action::at(&self.unit, instruction) {
            Action::Load(slot) if random.one_in(3) => state & !(1 << slot),
            Action::Load(slot) => state | 1 << slot,
            _ => state,
        }
    }

    fn near(&self, random: &mut Random, instruction: usize, state: &u32, near: Near) -> u32 {
        let one = 1 << random.less_than(self.unit.slot_count());
        let some = match random.less_than(3) {
            0 => one,
            1 => one | 1 << random.less_than(self.unit.slot_count()),
            _ => random.number() as u32 & self.all(),
        };
        match near {
            Near::Same => *state,
            Near::Above => state & !some,
            Near::Below => state | some,
            Near::Around => state ^ some,
            Near::Far => self.fitting(random, instruction),
        }
    }

    fn damaged(&self, random: &mut Random, state: &u32) -> Vec<u8> {
        let count = self.unit.slot_count();
        let mut bytes = self.writing(state);
        if count == 32 || random.one_in(3) {
            bytes.truncate(random.less_than(bytes.len()));
            return bytes;
        }
        let wrong = match random.less_than(4) {
            0 => 1 << count,
            1 => 1 << 31,
            2 => 1 << random.between(count, 31),
            _ => !self.all(),
        };
        self.writing(&(state | wrong))
    }
}

impl Sample for Rows<'_> {
    fn fitting(&self, random: &mut Random, instruction: usize) -> Row {
        let any = *random.pick(&[Row::None, Row::Held, Row::Perhaps]);
        let likely = !random.one_in(3);
        match Action::at(&self.unit, instruction) {
            Action::Post if likely => Row::None,
            Action::Return if likely => Row::Held,
            _ => any,
        }
    }

    fn near(&self, random: &mut Random, instruction: usize, state: &Row, near: Near) -> Row {
        match near {
            Near::Above => Row::Perhaps,
            Near::Below if *state == Row::Perhaps => *random.pick(&[Row::None, Row::Held]),
            Near::Same | Near::Below => *state,
            Near::Around => *random.pick(&[Row::None, Row::Held, Row::Perhaps]),
            Near::Far => self.fitting(random, instruction),
        }
    }

    fn damaged(&self, random: &mut Random, _state: &Row) -> Vec<u8> {
        match random.less_than(5) {
            0 => vec![],
            1 => vec![3],
            2 => vec![255],
            3 => vec![*random.pick(&[4, 16, 127, 128, 129, 130, 254])],
            _ => vec![random.between(3, 255) as u8],
        }
    }
}

impl<L: Sample, R: Sample> Sample for Pair<L, R> {
    fn fitting(&self, random: &mut Random, instruction: usize) -> Self::State {
        (self.left.fitting(random, instruction), self.right.fitting(random, instruction))
    }

    /// One part, or both, as asked for.
    fn near(
        &self,
        random: &mut Random,
        instruction: usize,
        state: &Self::State,
        near: Near,
    ) -> Self::State {
        let other = near.other_part(random);
        let (left, right) = if random.one_in(2) { (near, other) } else { (other, near) };
        (
            self.left.near(random, instruction, &state.0, left),
            self.right.near(random, instruction, &state.1, right),
        )
    }

    /// One part damaged, or the whole cut off.
    fn damaged(&self, random: &mut Random, state: &Self::State) -> Vec<u8> {
        let mut bytes = self.left.writing(&state.0);
        match random.less_than(5) {
            0 => {
                self.right.write(&state.1, &mut bytes);
                bytes.truncate(random.less_than(bytes.len()));
            }
            1 | 2 => {
                bytes = self.left.damaged(random, &state.0);
                self.right.write(&state.1, &mut bytes);
            }
            _ => bytes.extend(self.right.damaged(random, &state.1)),
        }
        bytes
    }
}
