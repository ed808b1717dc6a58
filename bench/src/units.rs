//! The units that are read.

use second::draft::{Draft, Shape, Tree};
use second::random::Random;
use second::unit::{op, refusal, MAX_CLASSES, MAX_CODE, MAX_DEPTH, MAX_FIELDS, MAX_SLOTS};

/// Bytes, and the number of the refusal that they meet, or 0.
pub struct Unit {
    pub name: &'static str,
    pub bytes: Vec<u8>,
    pub refusal: u32,
}

pub fn all() -> Vec<Unit> {
    let deep = largest(Tree::Chain, 1);
    let wide = largest(Tree::Star, MAX_FIELDS);
    // Only an operand of the last instruction is wrong, so all else is read first.
    let mut late = deep.clone();
    late.code[MAX_CODE - 1] = (op::RETURN, 1);
    vec![
        Unit { name: "built-in rule", bytes: Draft::rule_u().bytes(), refusal: 0 },
        Unit { name: "largest, deep tree", bytes: deep.bytes(), refusal: 0 },
        Unit { name: "largest, wide tree", bytes: wide.bytes(), refusal: 0 },
        Unit { name: "refused at the end", bytes: late.bytes(), refusal: refusal::CODE },
    ]
}

/// A good unit with as many classes, slots and instructions as there may be.
fn largest(tree: Tree, new_fields: usize) -> Draft {
    let shape = Shape {
        depth: MAX_DEPTH,
        classes: MAX_CLASSES,
        tree,
        new_fields,
        slots: MAX_SLOTS,
        code: MAX_CODE,
    };
    Draft::random(&mut Random::new(1), shape)
}
