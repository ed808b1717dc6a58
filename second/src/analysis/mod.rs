//! The analyses: what each can know of the configurations at an instruction,
//! and how an instruction changes it.

mod pair;
mod rows;
mod slots;
mod types;

#[cfg(test)]
mod laws;

use std::fmt::Debug;

use crate::machine::{Configuration, Fault};
use crate::unit::Unit;

pub use pair::Pair;
pub use rows::{Row, Rows};
pub use slots::Slots;
pub use types::Types;

/// The number of an analysis, from 1. A pair has those of its parts.
pub type Layer = u32;

/// A fault of an effect: which analysis met it, which it is, and its detail,
/// 0 where there is nothing more to say.
#[derive(Clone, Copy, Debug, PartialEq, Eq)]
pub struct LayerFault {
    pub layer: Layer,
    pub fault: Fault,
    pub detail: u32,
}

/// The least state above two, and whether it is another one than the first.
#[derive(Clone, Debug, PartialEq, Eq)]
pub struct Joined<S> {
    pub state: S,
    pub rose: bool,
}

/// A state that was read, and the number of bytes that it took.
#[derive(Clone, Debug, PartialEq, Eq)]
pub struct ReadState<S> {
    pub state: S,
    pub length: usize,
}

/// An analysis of one unit.
pub trait Analysis {
    type State: Clone + Debug + PartialEq;

    /// The state that describes every start of a run.
    fn start(&self) -> Self::State;

    /// Whether `a` lies below `b`.
    fn below(&self, a: &Self::State, b: &Self::State) -> bool;

    /// The least state above both, or nothing if there is no state above both.
    fn join(&self, a: &Self::State, b: &Self::State) -> Option<Joined<Self::State>>;

    /// The state after an instruction of the code, or the fault.
    fn effect(&self, instruction: usize, state: &Self::State) -> Result<Self::State, LayerFault>;

    /// Adds the writing of a state to the bytes.
    fn write(&self, state: &Self::State, bytes: &mut Vec<u8>);

    /// The state whose writing the bytes begin with, or the layer that refuses them.
    fn read(&self, bytes: &[u8]) -> Result<ReadState<Self::State>, Layer>;

    /// Whether a state describes a configuration.
    fn describes(&self, state: &Self::State, configuration: &Configuration) -> bool;

    /// Whether the analysis forbids a fault: where a state describes a
    /// configuration and the effect accepts, the step does not meet it.
    fn forbids(&self, fault: Fault) -> bool;

    /// The writing of a state.
    fn writing(&self, state: &Self::State) -> Vec<u8> {
        let mut bytes = Vec::new();
        self.write(state, &mut bytes);
        bytes
    }
}

/// Types paired with the pair of slots and rows.
pub type Three<'a> = Pair<Types<'a>, Pair<Slots<'a>, Rows<'a>>>;

/// The three of a unit.
pub fn three(unit: Unit<'_>) -> Three<'_> {
    Pair { left: Types { unit }, right: Pair { left: Slots { unit }, right: Rows { unit } } }
}

/// The pair of rows and types, in this order.
pub type RowsTypes<'a> = Pair<Rows<'a>, Types<'a>>;

/// The pair of rows and types of a unit.
pub fn rows_types(unit: Unit<'_>) -> RowsTypes<'_> {
    Pair { left: Rows { unit }, right: Types { unit } }
}
