//! Types: the kinds of the operands.

use super::{Analysis, Joined, Layer, LayerFault, ReadState};
use crate::code::Action;
use crate::kinds::{below, join, Kind};
use crate::machine::{Configuration, Fault};
use crate::unit::Unit;

const LAYER: Layer = 1;

/// The analysis of types. A state is the kinds of the operands, the top last,
/// and no more than the head allows. Faults: too few, too deep, mismatch.
#[derive(Clone, Copy, Debug)]
pub struct Types<'a> {
    pub unit: Unit<'a>,
}

impl Types<'_> {
    fn fault(fault: Fault, detail: usize) -> LayerFault {
        LayerFault { layer: LAYER, fault, detail: detail as u32 }
    }

    /// The kind of a code, if a state may hold it.
    fn known_kind(&self, code: u16) -> Option<Kind> {
        match Kind::from_code(code) {
            Kind::Class(class) if usize::from(class) >= self.unit.class_count() => None,
            kind => Some(kind),
        }
    }

    /// The state that the bytes begin with, if they do.
    fn read_kinds(&self, bytes: &[u8]) -> Option<Vec<Kind>> {
        let (&depth, rest) = bytes.split_first()?;
        if depth > self.unit.depth() {
            return None;
        }
        let codes = rest.get(..2 * usize::from(depth))?;
        let (codes, _) = codes.as_chunks::<2>();
        codes.iter().map(|&code| self.known_kind(u16::from_be_bytes(code))).collect()
    }
}

impl Analysis for Types<'_> {
    type State = Vec<Kind>;

    fn start(&self) -> Vec<Kind> {
        Vec::new()
    }

    /// The depths are equal, and each kind lies below the other's.
    fn below(&self, a: &Vec<Kind>, b: &Vec<Kind>) -> bool {
        a.len() == b.len() && a.iter().zip(b).all(|(&a, &b)| below(&self.unit, a, b))
    }

    /// Kind by kind; refused if the depths differ.
    fn join(&self, a: &Vec<Kind>, b: &Vec<Kind>) -> Option<Joined<Vec<Kind>>> {
        if a.len() != b.len() {
            return None;
        }
        let state: Vec<Kind> = a.iter().zip(b).map(|(&a, &b)| join(&self.unit, a, b)).collect();
        let rose = state != *a;
        Some(Joined { state, rose })
    }

    /// As the step does it, with kinds instead of values: first the number of
    /// operands, then each from the top, last the depth.
    fn effect(&self, instruction: usize, state: &Vec<Kind>) -> Result<Vec<Kind>, LayerFault> {
        let signature = Action::at(&self.unit, instruction).signature(&self.unit);
        let Some(kept) = state.len().checked_sub(signature.takes.len()) else {
            return Err(Self::fault(Fault::TooFew, 0));
        };
        let from_top = state[kept..].iter().zip(&signature.takes).rev();
        for (distance, (&kind, &needed)) in from_top.enumerate() {
            if !below(&self.unit, kind, needed) {
                return Err(Self::fault(Fault::Mismatch, distance));
            }
        }
        if signature.depth_after(kept) > usize::from(self.unit.depth()) {
            return Err(Self::fault(Fault::TooDeep, 0));
        }
        let mut after = state[..kept].to_vec();
        after.extend(signature.leaves);
        Ok(after)
    }

    /// The depth in one byte, then the kinds from the bottom, two bytes each.
    fn write(&self, state: &Vec<Kind>, bytes: &mut Vec<u8>) {
        bytes.push(u8::try_from(state.len()).expect("a state is at most 16 deep"));
        bytes.extend(state.iter().flat_map(|kind| kind.code().to_be_bytes()));
    }

    fn read(&self, bytes: &[u8]) -> Result<ReadState<Vec<Kind>>, Layer> {
        let state = self.read_kinds(bytes).ok_or(LAYER)?;
        let length = 1 + 2 * state.len();
        Ok(ReadState { state, length })
    }

    /// There are as many operands as kinds, and each value conforms.
    fn describes(&self, state: &Vec<Kind>, configuration: &Configuration) -> bool {
        let operands = &configuration.operands;
        operands.len() == state.len()
            && operands
                .iter()
                .zip(state)
                .all(|(&value, &kind)| configuration.conforms(&self.unit, value, kind))
    }

    fn forbids(&self, fault: Fault) -> bool {
        matches!(fault, Fault::TooFew | Fault::TooDeep | Fault::Mismatch)
    }
}

#[cfg(test)]
mod tests {
    use super::*;
    use crate::draft::{Class, Draft};
    use crate::unit::{op, read, INT};

    const VESSEL: Kind = Kind::Class(1);
    const FERRY: Kind = Kind::Class(2);

    /// Rule U with a class of a reference field, other code and this depth.
    fn bytes(depth: u8, code: &[(u8, u16)]) -> Vec<u8> {
        let mut draft = Draft::rule_u();
        draft.classes.push(Class::new(1, &[INT, 2]));
        draft.depth = depth;
        draft.code = code.to_vec();
        draft.bytes()
    }

    /// The after-state of one instruction, or the fault's number and detail.
    fn effect(depth: u8, instruction: (u8, u16), state: &[Kind]) -> Result<Vec<Kind>, (u32, u32)> {
        let bytes = bytes(depth, &[instruction]);
        let types = Types { unit: read(&bytes).unwrap() };
        types.effect(0, &state.to_vec()).map_err(|fault| {
            assert_eq!(fault.layer, 1);
            (fault.fault.number(), fault.detail)
        })
    }

    #[test]
    fn effects() {
        let (int, null, unusable) = (Kind::Int, Kind::Null, Kind::Unusable);
        assert_eq!(effect(2, (op::PUSH, 9), &[null]), Ok(vec![null, int]));
        assert_eq!(effect(2, (op::NIL, 0), &[]), Ok(vec![null]));
        assert_eq!(effect(2, (op::LOAD, 0), &[]), Ok(vec![VESSEL]));
        assert_eq!(effect(2, (op::LOAD, 1), &[]), Ok(vec![int]));
        assert_eq!(effect(2, (op::STORE, 0), &[int, FERRY]), Ok(vec![int]));
        assert_eq!(effect(2, (op::STORE, 0), &[null]), Ok(vec![]));
        assert_eq!(effect(2, (op::DROP, 0), &[unusable]), Ok(vec![]));
        assert_eq!(effect(2, (op::ADD, 0), &[int, int]), Ok(vec![int]));
        assert_eq!(effect(2, (op::LESS, 0), &[int, int]), Ok(vec![int]));
        assert_eq!(effect(2, (op::JUMP, 0), &[unusable]), Ok(vec![unusable]));
        assert_eq!(effect(2, (op::BRANCH, 0), &[int]), Ok(vec![]));
        assert_eq!(effect(2, (op::BRNULL, 0), &[null]), Ok(vec![]));
        assert_eq!(effect(2, (op::BRNULL, 0), &[FERRY]), Ok(vec![]));
        assert_eq!(effect(2, (op::NEW, 2), &[]), Ok(vec![FERRY]));
        assert_eq!(effect(2, (op::GET, 33), &[Kind::Class(4)]), Ok(vec![FERRY]));
        assert_eq!(effect(2, (op::GET, 33), &[null]), Ok(vec![FERRY]));
        assert_eq!(effect(2, (op::PUT, 33), &[Kind::Class(4), null]), Ok(vec![]));
        assert_eq!(effect(2, (op::POST, 0), &[int]), Ok(vec![]));
        assert_eq!(effect(2, (op::RETURN, 0), &[int, null]), Ok(vec![int, null]));
    }

    #[test]
    fn faults() {
        let (int, null, unusable) = (Kind::Int, Kind::Null, Kind::Unusable);
        assert_eq!(effect(2, (op::ADD, 0), &[]), Err((1, 0)));
        assert_eq!(effect(2, (op::ADD, 0), &[null]), Err((1, 0)));
        assert_eq!(effect(2, (op::ADD, 0), &[null, int]), Err((3, 1)));
        assert_eq!(effect(2, (op::ADD, 0), &[int, null]), Err((3, 0)));
        assert_eq!(effect(2, (op::ADD, 0), &[null, null]), Err((3, 0)));
        assert_eq!(effect(2, (op::PUT, 33), &[VESSEL, VESSEL]), Err((3, 0)));
        assert_eq!(effect(2, (op::PUT, 33), &[VESSEL, FERRY]), Err((3, 1)));
        assert_eq!(effect(2, (op::BRNULL, 0), &[unusable]), Err((3, 0)));
        assert_eq!(effect(2, (op::BRNULL, 0), &[int]), Err((3, 0)));
        assert_eq!(effect(2, (op::GET, 16), &[VESSEL]), Err((3, 0)));
        assert_eq!(effect(2, (op::GET, 16), &[unusable]), Err((3, 0)));
        assert_eq!(effect(2, (op::NIL, 0), &[int, int]), Err((2, 0)));
        assert_eq!(effect(0, (op::LOAD, 0), &[]), Err((2, 0)));
    }

    /// The depth is looked at last, and also where it does not grow.
    #[test]
    fn too_deep_states() {
        let int = Kind::Int;
        assert_eq!(effect(1, (op::JUMP, 0), &[int, int]), Err((2, 0)));
        assert_eq!(effect(1, (op::RETURN, 0), &[int, int]), Err((2, 0)));
        assert_eq!(effect(1, (op::ADD, 0), &[int, int]), Ok(vec![int]));
        assert_eq!(effect(1, (op::ADD, 0), &[int, int, int]), Err((2, 0)));
        assert_eq!(effect(1, (op::ADD, 0), &[int, FERRY, int]), Err((3, 1)));
        assert_eq!(effect(1, (op::DROP, 0), &[int, int]), Ok(vec![int]));
    }

    #[test]
    fn joins() {
        let bytes = bytes(2, &[(op::RETURN, 0)]);
        let types = Types { unit: read(&bytes).unwrap() };
        let joined = types.join(&vec![FERRY, Kind::Int], &vec![Kind::Class(3), Kind::Int]);
        assert_eq!(joined, Some(Joined { state: vec![VESSEL, Kind::Int], rose: true }));
        let joined = types.join(&vec![FERRY], &vec![Kind::Null]);
        assert_eq!(joined, Some(Joined { state: vec![FERRY], rose: false }));
        let joined = types.join(&vec![FERRY], &vec![Kind::Int]);
        assert_eq!(joined, Some(Joined { state: vec![Kind::Unusable], rose: true }));
        assert_eq!(types.join(&vec![], &vec![Kind::Null]), None);
    }

    #[test]
    fn reading() {
        let bytes = bytes(2, &[(op::RETURN, 0)]);
        let types = Types { unit: read(&bytes).unwrap() };
        let read = |bytes: &[u8]| types.read(bytes).map(|read| (read.state, read.length));
        assert_eq!(read(&[0]), Ok((vec![], 1)));
        assert_eq!(read(&[0, 9, 9]), Ok((vec![], 1)));
        assert_eq!(read(&[1, 0xFF, 0xFF]), Ok((vec![Kind::Int], 3)));
        assert_eq!(read(&[1, 0xFF, 0xFE, 0]), Ok((vec![Kind::Null], 3)));
        assert_eq!(read(&[2, 0xFF, 0xFD, 0, 4]), Ok((vec![Kind::Unusable, Kind::Class(4)], 5)));
        let refused: [&[u8]; 9] = [
            &[],
            &[1],
            &[1, 0xFF],
            &[2, 0, 0, 0],
            &[3, 0, 0, 0, 0, 0, 0],
            &[255],
            &[1, 0, 5],
            &[1, 0xFF, 0xFC],
            &[2, 1, 0, 0, 0],
        ];
        for bytes in refused {
            assert_eq!(read(bytes), Err(1), "{bytes:?}");
        }
    }
}
