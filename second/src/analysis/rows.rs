//! Rows: whether a row is held.

use super::{Analysis, Joined, Layer, LayerFault, ReadState};
use crate::code::Action;
use crate::machine::{Configuration, Fault};
use crate::unit::Unit;

const LAYER: Layer = 3;

/// What is known of the row.
#[derive(Clone, Copy, Debug, PartialEq, Eq)]
pub enum Row {
    None,
    Held,
    /// There may be one or not; this is above both others.
    Perhaps,
}

/// The analysis of rows. Faults: row held, no row.
#[derive(Clone, Copy, Debug)]
pub struct Rows<'a> {
    pub unit: Unit<'a>,
}

fn fault(fault: Fault) -> LayerFault {
    LayerFault { layer: LAYER, fault, detail: 0 }
}

impl Analysis for Rows<'_> {
    type State = Row;

    fn start(&self) -> Row {
        Row::None
    }

    fn below(&self, a: &Row, b: &Row) -> bool {
        a == b || *b == Row::Perhaps
    }

    fn join(&self, a: &Row, b: &Row) -> Option<Joined<Row>> {
        let state = if a == b { *a } else { Row::Perhaps };
        Some(Joined { state, rose: state != *a })
    }

    fn effect(&self, instruction: usize, state: &Row) -> Result<Row, LayerFault> {
        match (Action::at(&self.unit, instruction), state) {
            (Action::Post, Row::None) => Ok(Row::Held),
            (Action::Post, _) => Err(fault(Fault::RowHeld)),
            (Action::Return, Row::None | Row::Perhaps) => Err(fault(Fault::NoRow)),
            _ => Ok(*state),
        }
    }

    /// One byte.
    fn write(&self, state: &Row, bytes: &mut Vec<u8>) {
        bytes.push(match state {
            Row::None => 0,
            Row::Held => 1,
            Row::Perhaps => 2,
        });
    }

    fn read(&self, bytes: &[u8]) -> Result<ReadState<Row>, Layer> {
        let state = match bytes.first() {
            Some(0) => Row::None,
            Some(1) => Row::Held,
            Some(2) => Row::Perhaps,
            _ => return Err(LAYER),
        };
        Ok(ReadState { state, length: 1 })
    }

    fn describes(&self, state: &Row, configuration: &Configuration) -> bool {
        match state {
            Row::None => configuration.row.is_none(),
            Row::Held => configuration.row.is_some(),
            Row::Perhaps => true,
        }
    }

    fn forbids(&self, fault: Fault) -> bool {
        matches!(fault, Fault::RowHeld | Fault::NoRow)
    }
}

#[cfg(test)]
mod tests {
    use super::*;
    use crate::draft::Draft;
    use crate::unit::read;

    #[test]
    fn effects() {
        // Of rule U, 7 is push, 8 post and 9 return.
        let bytes = Draft::rule_u().bytes();
        let rows = Rows { unit: read(&bytes).unwrap() };
        assert_eq!(rows.start(), Row::None);
        let effects = |instruction| {
            [Row::None, Row::Held, Row::Perhaps].map(|row| rows.effect(instruction, &row))
        };
        let held = Err(fault(Fault::RowHeld));
        let no_row = Err(fault(Fault::NoRow));
        assert_eq!(effects(7), [Ok(Row::None), Ok(Row::Held), Ok(Row::Perhaps)]);
        assert_eq!(effects(8), [Ok(Row::Held), held, held]);
        assert_eq!(effects(9), [no_row, Ok(Row::Held), no_row]);
    }

    #[test]
    fn order_and_join() {
        let bytes = Draft::rule_u().bytes();
        let rows = Rows { unit: read(&bytes).unwrap() };
        let (none, held, perhaps) = (Row::None, Row::Held, Row::Perhaps);
        assert!(rows.below(&none, &perhaps) && rows.below(&held, &perhaps));
        assert!(!rows.below(&perhaps, &none) && !rows.below(&none, &held));
        assert_eq!(rows.join(&none, &held), Some(Joined { state: perhaps, rose: true }));
        assert_eq!(rows.join(&held, &held), Some(Joined { state: held, rose: false }));
        assert_eq!(rows.join(&perhaps, &held), Some(Joined { state: perhaps, rose: false }));
    }

    #[test]
    fn reading() {
        let bytes = Draft::rule_u().bytes();
        let rows = Rows { unit: read(&bytes).unwrap() };
        assert_eq!(rows.read(&[2, 7]), Ok(ReadState { state: Row::Perhaps, length: 1 }));
        for byte in 3..=255 {
            assert_eq!(rows.read(&[byte, 0]), Err(3));
        }
        assert_eq!(rows.read(&[]), Err(3));
    }
}
