//! The pair of two analyses of one unit, which is an analysis again.

use super::{Analysis, Joined, Layer, LayerFault, ReadState};
use crate::machine::{Configuration, Fault};

/// Both parts side by side. The left one comes first in effects, joins and bytes.
#[derive(Clone, Copy, Debug)]
pub struct Pair<L, R> {
    pub left: L,
    pub right: R,
}

impl<L: Analysis, R: Analysis> Analysis for Pair<L, R> {
    type State = (L::State, R::State);

    fn start(&self) -> Self::State {
        (self.left.start(), self.right.start())
    }

    fn below(&self, a: &Self::State, b: &Self::State) -> bool {
        self.left.below(&a.0, &b.0) && self.right.below(&a.1, &b.1)
    }

    /// The state rose if either part did; it is refused if either part refuses.
    fn join(&self, a: &Self::State, b: &Self::State) -> Option<Joined<Self::State>> {
        let left = self.left.join(&a.0, &b.0)?;
        let right = self.right.join(&a.1, &b.1)?;
        Some(Joined { state: (left.state, right.state), rose: left.rose || right.rose })
    }

    fn effect(&self, instruction: usize, state: &Self::State) -> Result<Self::State, LayerFault> {
        let left = self.left.effect(instruction, &state.0)?;
        let right = self.right.effect(instruction, &state.1)?;
        Ok((left, right))
    }

    fn write(&self, state: &Self::State, bytes: &mut Vec<u8>) {
        self.left.write(&state.0, bytes);
        self.right.write(&state.1, bytes);
    }

    /// The right part is read from the bytes after the left one.
    fn read(&self, bytes: &[u8]) -> Result<ReadState<Self::State>, Layer> {
        let left = self.left.read(bytes)?;
        let right = self.right.read(&bytes[left.length..])?;
        Ok(ReadState { state: (left.state, right.state), length: left.length + right.length })
    }

    fn describes(&self, state: &Self::State, configuration: &Configuration) -> bool {
        self.left.describes(&state.0, configuration)
            && self.right.describes(&state.1, configuration)
    }

    fn forbids(&self, fault: Fault) -> bool {
        self.left.forbids(fault) || self.right.forbids(fault)
    }
}

#[cfg(test)]
mod tests {
    use super::super::{rows_types, three, Row};
    use super::*;
    use crate::draft::Draft;
    use crate::kinds::Kind;
    use crate::unit::{op, read};

    fn fault<S>(layer: Layer, fault: Fault, detail: u32) -> Result<S, LayerFault> {
        Err(LayerFault { layer, fault, detail })
    }

    #[test]
    fn left_first() {
        let mut draft = Draft::rule_u();
        draft.code = vec![(op::LOAD, 1), (op::POST, 0)];
        let bytes = draft.bytes();
        let unit = read(&bytes).unwrap();
        let int = Kind::Int;

        let three = three(unit);
        assert_eq!(three.start(), (vec![], (1, Row::None)));
        let deep = (vec![int, int], (1, Row::None));
        assert_eq!(three.effect(0, &deep), fault(1, Fault::TooDeep, 0));
        let unset = (vec![int], (1, Row::None));
        assert_eq!(three.effect(0, &unset), fault(2, Fault::Unset, 1));
        let set = (vec![int], (2, Row::Held));
        assert_eq!(three.effect(0, &set), Ok((vec![int, int], (2, Row::Held))));
        let held = (vec![Kind::Null], (1, Row::Held));
        assert_eq!(three.effect(1, &held), fault(1, Fault::Mismatch, 0));

        let rows_types = rows_types(unit);
        assert_eq!(rows_types.effect(1, &(Row::Held, vec![])), fault(3, Fault::RowHeld, 0));
        assert_eq!(rows_types.effect(1, &(Row::None, vec![])), fault(1, Fault::TooFew, 0));
    }

    #[test]
    fn joins() {
        let bytes = Draft::rule_u().bytes();
        let three = three(read(&bytes).unwrap());
        let (int, null) = (Kind::Int, Kind::Null);
        let a = (vec![int], (0b11, Row::None));
        let joined = three.join(&a, &(vec![int], (0b01, Row::None))).unwrap();
        assert_eq!(joined, Joined { state: (vec![int], (0b01, Row::None)), rose: true });
        let joined = three.join(&a, &(vec![null], (0b11, Row::None))).unwrap();
        assert_eq!(joined, Joined { state: (vec![Kind::Unusable], (0b11, Row::None)), rose: true });
        assert!(!three.join(&a, &a).unwrap().rose);
        assert_eq!(three.join(&a, &(vec![], (0b11, Row::None))), None);
    }

    #[test]
    fn reading() {
        let bytes = Draft::rule_u().bytes();
        let unit = read(&bytes).unwrap();
        let three = three(unit);
        let good = [1, 255, 255, 0, 0, 0, 3, 1];
        let state = (vec![Kind::Int], (3, Row::Held));
        assert_eq!(three.writing(&state), good);
        assert_eq!(three.read(&good), Ok(ReadState { state, length: 8 }));
        let layers: Vec<_> = (0..8).map(|length| three.read(&good[..length])).collect();
        assert_eq!(layers, [1, 1, 1, 2, 2, 2, 2, 3].map(Err));
        assert_eq!(three.read(&[3, 0, 0, 0, 4, 9]), Err(1));
        assert_eq!(three.read(&[0, 0, 0, 0, 4, 9]), Err(2));
        assert_eq!(three.read(&[0, 0, 0, 0, 3, 9]), Err(3));

        let rows_types = rows_types(unit);
        let state = (Row::Perhaps, vec![Kind::Class(3)]);
        assert_eq!(rows_types.writing(&state), [2, 1, 0, 3]);
        assert_eq!(rows_types.read(&[2, 1, 0, 3, 4]), Ok(ReadState { state, length: 4 }));
        assert_eq!(rows_types.read(&[3, 1, 0, 4]), Err(3));
        assert_eq!(rows_types.read(&[2, 1, 0, 4]), Err(1));
        assert_eq!(rows_types.read(&[2]), Err(1));
    }
}
