//! The instructions of a unit taken apart, and what each takes and leaves.

use crate::kinds::Kind;
use crate::unit::{op, Unit, MAX_FIELDS};

/// A reference of any sort. Null and every class lie below the root, and
/// nothing else does.
const REFERENCE: Kind = Kind::Class(0);

/// A value of any sort. Every kind lies below unusable.
const ANY: Kind = Kind::Unusable;

/// A field of a class.
#[derive(Clone, Copy, Debug, PartialEq, Eq)]
pub struct Field {
    pub class: u16,
    pub number: usize,
}

impl Field {
    /// The field that the operand of get or put names: eight times the class,
    /// plus the field.
    fn from_operand(operand: u16) -> Field {
        let operand = usize::from(operand);
        Field { class: (operand / MAX_FIELDS) as u16, number: operand % MAX_FIELDS }
    }

    /// The kind of the field's values.
    fn kind(self, unit: &Unit) -> Kind {
        Kind::from_code(unit.field(usize::from(self.class), self.number))
    }
}

/// An instruction with what its operand names.
#[derive(Clone, Copy, Debug, PartialEq, Eq)]
pub enum Action {
    Push(i16),
    Nil,
    /// Puts the value of this slot on top.
    Load(usize),
    /// Takes the value of this slot from the top.
    Store(usize),
    Drop,
    Add,
    Less,
    /// Goes on at this instruction.
    Jump(usize),
    /// Goes on at this instruction unless the int is 0.
    Branch(usize),
    /// Goes on at this instruction if the reference is null.
    Brnull(usize),
    /// Makes an object of this class.
    New(u16),
    Get(Field),
    Put(Field),
    Post,
    Return,
}

impl Action {
    /// The action of an instruction of the unit.
    pub fn at(unit: &Unit, instruction: usize) -> Action {
        let operand = unit.operand(instruction);
        let number = usize::from(operand);
        match unit.opcode(instruction) {
            op::PUSH => Action::Push(operand as i16),
            op::NIL => Action::Nil,
            op::LOAD => Action::Load(number),
            op::STORE => Action::Store(number),
            op::DROP => Action::Drop,
            op::ADD => Action::Add,
            op::LESS => Action::Less,
            op::JUMP => Action::Jump(number),
            op::BRANCH => Action::Branch(number),
            op::BRNULL => Action::Brnull(number),
            op::NEW => Action::New(operand),
            op::GET => Action::Get(Field::from_operand(operand)),
            op::PUT => Action::Put(Field::from_operand(operand)),
            op::POST => Action::Post,
            op::RETURN => Action::Return,
            opcode => unreachable!("a unit that was read has no opcode {opcode}"),
        }
    }

    /// What the action does to the operands.
    pub fn signature(self, unit: &Unit) -> Signature {
        let slot = |number| Kind::from_code(unit.slot(number));
        let (takes, leaves) = match self {
            Action::Push(_) => (vec![], Some(Kind::Int)),
            Action::Nil => (vec![], Some(Kind::Null)),
            Action::Load(number) => (vec![], Some(slot(number))),
            Action::Store(number) => (vec![slot(number)], None),
            Action::Drop => (vec![ANY], None),
            Action::Add | Action::Less => (vec![Kind::Int, Kind::Int], Some(Kind::Int)),
            Action::Jump(_) | Action::Return => (vec![], None),
            Action::Branch(_) | Action::Post => (vec![Kind::Int], None),
            Action::Brnull(_) => (vec![REFERENCE], None),
            Action::New(class) => (vec![], Some(Kind::Class(class))),
            Action::Get(field) => (vec![Kind::Class(field.class)], Some(field.kind(unit))),
            Action::Put(field) => (vec![Kind::Class(field.class), field.kind(unit)], None),
        };
        Signature { takes, leaves }
    }
}

/// The kinds that an action asks of the operands it takes, the top last, and
/// the kind of the operand that it leaves.
#[derive(Clone, Debug, PartialEq, Eq)]
pub struct Signature {
    pub takes: Vec<Kind>,
    pub leaves: Option<Kind>,
}

impl Signature {
    /// The depth after the action, if it keeps this many operands.
    pub fn depth_after(&self, kept: usize) -> usize {
        kept + usize::from(self.leaves.is_some())
    }
}

#[cfg(test)]
mod tests {
    use super::*;
    use crate::draft::Draft;
    use crate::unit::read;

    /// Takes and leaves of each instruction of the showcase, in order.
    #[test]
    fn signatures() {
        let bytes = Draft::showcase().bytes();
        let unit = &read(&bytes).unwrap();
        let (int, root, seven) = (Kind::Int, Kind::Class(0), Kind::Class(7));
        let expected: [(&[Kind], Option<Kind>); 23] = [
            (&[], Some(int)),
            (&[int], None),
            (&[], Some(seven)),
            (&[seven], None),
            (&[], Some(seven)),
            (&[seven], Some(seven)),
            (&[root], None),
            (&[], Some(Kind::Class(6))),
            (&[], None),
            (&[], Some(Kind::Null)),
            (&[Kind::Unusable], None),
            (&[], Some(seven)),
            (&[], Some(int)),
            (&[], Some(int)),
            (&[int, int], Some(int)),
            (&[seven, int], None),
            (&[], Some(int)),
            (&[], Some(int)),
            (&[int, int], Some(int)),
            (&[int], None),
            (&[], Some(int)),
            (&[int], None),
            (&[], None),
        ];
        for (instruction, (takes, leaves)) in expected.into_iter().enumerate() {
            let signature = Action::at(unit, instruction).signature(unit);
            assert_eq!((&signature.takes[..], signature.leaves), (takes, leaves), "{instruction}");
        }
    }

    #[test]
    fn operands() {
        let bytes = Draft::showcase().bytes();
        let unit = &read(&bytes).unwrap();
        assert_eq!(Action::at(unit, 0), Action::Push(-1));
        assert_eq!(Action::at(unit, 5), Action::Get(Field { class: 7, number: 3 }));
        assert_eq!(Action::at(unit, 6), Action::Brnull(9));
        assert_eq!(Action::at(unit, 15), Action::Put(Field { class: 7, number: 0 }));
    }
}
