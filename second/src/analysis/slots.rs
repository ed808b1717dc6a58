//! Slots: which slots are surely set.

use super::{Analysis, Joined, Layer, LayerFault, ReadState};
use crate::code::Action;
use crate::machine::{Configuration, Fault};
use crate::unit::Unit;

const LAYER: Layer = 2;

/// The analysis of slots. A state is the set of the slots that are surely set,
/// bit `n` for slot `n`; the bits from the slot count on are 0. Fault: unset.
#[derive(Clone, Copy, Debug)]
pub struct Slots<'a> {
    pub unit: Unit<'a>,
}

impl Slots<'_> {
    /// The set of all slots.
    pub fn all(&self) -> u32 {
        u32::MAX >> (u32::BITS - self.unit.slot_count() as u32)
    }
}

/// The set of one slot.
fn bit(slot: usize) -> u32 {
    1 << slot
}

impl Analysis for Slots<'_> {
    type State = u32;

    /// Slot 0 alone: it holds the vessel.
    fn start(&self) -> u32 {
        bit(0)
    }

    /// The larger set is below, since it says more.
    fn below(&self, a: &u32, b: &u32) -> bool {
        a & b == *b
    }

    /// The slots that are set in both.
    fn join(&self, a: &u32, b: &u32) -> Option<Joined<u32>> {
        let state = a & b;
        Some(Joined { state, rose: state != *a })
    }

    fn effect(&self, instruction: usize, state: &u32) -> Result<u32, LayerFault> {
        match Action::at(&self.unit, instruction) {
            Action::Load(slot) if state & bit(slot) == 0 => {
                Err(LayerFault { layer: LAYER, fault: Fault::Unset, detail: slot as u32 })
            }
            Action::Store(slot) => Ok(state | bit(slot)),
            _ => Ok(*state),
        }
    }

    /// Four bytes, high byte first.
    fn write(&self, state: &u32, bytes: &mut Vec<u8>) {
        bytes.extend(state.to_be_bytes());
    }

    fn read(&self, bytes: &[u8]) -> Result<ReadState<u32>, Layer> {
        let state = u32::from_be_bytes(*bytes.first_chunk().ok_or(LAYER)?);
        if state & !self.all() != 0 {
            return Err(LAYER);
        }
        Ok(ReadState { state, length: 4 })
    }

    fn describes(&self, state: &u32, configuration: &Configuration) -> bool {
        let mut slots = configuration.slots.iter().enumerate();
        slots.all(|(slot, value)| value.is_some() || state & bit(slot) == 0)
    }

    fn forbids(&self, fault: Fault) -> bool {
        fault == Fault::Unset
    }
}

#[cfg(test)]
mod tests {
    use super::*;
    use crate::draft::Draft;
    use crate::unit::{op, read, INT};

    fn bytes(slots: usize, code: &[(u8, u16)]) -> Vec<u8> {
        let mut draft = Draft::rule_u();
        draft.slots = vec![INT; slots];
        draft.slots[0] = 1;
        draft.code = code.to_vec();
        draft.bytes()
    }

    #[test]
    fn effects() {
        let bytes = bytes(5, &[(op::LOAD, 3), (op::STORE, 3), (op::POST, 0)]);
        let slots = Slots { unit: read(&bytes).unwrap() };
        assert_eq!(slots.start(), 1);
        assert_eq!(slots.effect(0, &0b01001), Ok(0b01001));
        let fault = LayerFault { layer: 2, fault: Fault::Unset, detail: 3 };
        assert_eq!(slots.effect(0, &0b10111), Err(fault));
        assert_eq!(slots.effect(1, &0b10000), Ok(0b11000));
        assert_eq!(slots.effect(1, &0b11000), Ok(0b11000));
        assert_eq!(slots.effect(2, &0), Ok(0));
    }

    #[test]
    fn order_and_join() {
        let bytes = bytes(3, &[(op::RETURN, 0)]);
        let slots = Slots { unit: read(&bytes).unwrap() };
        assert!(slots.below(&0b111, &0b101));
        assert!(!slots.below(&0b101, &0b111));
        assert!(!slots.below(&0b101, &0b110));
        assert_eq!(slots.join(&0b101, &0b110), Some(Joined { state: 0b100, rose: true }));
        assert_eq!(slots.join(&0b100, &0b110), Some(Joined { state: 0b100, rose: false }));
    }

    #[test]
    fn reading() {
        let five = bytes(5, &[(op::RETURN, 0)]);
        let slots = Slots { unit: read(&five).unwrap() };
        let read_slots = |bytes: &[u8]| slots.read(bytes).map(|read| (read.state, read.length));
        assert_eq!(read_slots(&[0, 0, 0, 0]), Ok((0, 4)));
        assert_eq!(read_slots(&[0, 0, 0, 0b11110, 255]), Ok((0b11110, 4)));
        assert_eq!(read_slots(&[0, 0, 0, 0b100000]), Err(2));
        assert_eq!(read_slots(&[128, 0, 0, 1]), Err(2));
        assert_eq!(read_slots(&[0, 0, 0]), Err(2));
        assert_eq!(read_slots(&[]), Err(2));
        let most = bytes(32, &[(op::RETURN, 0)]);
        let slots = Slots { unit: read(&most).unwrap() };
        assert_eq!(slots.read(&[255; 4]).unwrap().state, u32::MAX);
    }
}
