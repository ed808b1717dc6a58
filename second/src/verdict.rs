//! The verdict line of a unit.

use crate::kinds::{below, join, Kind};
use crate::unit::{read, Unit};

/// The verdict line of the unit numbered `number`, without the line end.
pub fn verdict(number: usize, bytes: &[u8]) -> String {
    match read(bytes) {
        Err(refusal) => format!("{number} {refusal}"),
        Ok(unit) => format!(
            "{number} read {} bytes depth {} classes {} slots {} instructions {} digest {} kinds {}",
            bytes.len(),
            unit.depth(),
            unit.class_count(),
            unit.slot_count(),
            unit.code_len(),
            contents_digest(&unit),
            kinds_digest(&unit),
        ),
    }
}

/// A 32-bit digest of numbers, from 0 by `h * 31 + x`.
struct Digest(u32);

impl Digest {
    fn take(&mut self, x: impl Into<u32>) {
        self.0 = self.0.wrapping_mul(31).wrapping_add(x.into());
    }

    fn take_count(&mut self, count: usize) {
        self.take(count as u32);
    }
}

/// The digest of all that a unit says.
pub fn contents_digest(unit: &Unit) -> u32 {
    let mut digest = Digest(0);
    digest.take(unit.depth());
    digest.take_count(unit.class_count());
    for class in 0..unit.class_count() {
        digest.take(unit.parent(class));
        digest.take_count(unit.field_count(class));
        for field in 0..unit.field_count(class) {
            digest.take(unit.field(class, field));
        }
    }
    digest.take_count(unit.slot_count());
    for slot in 0..unit.slot_count() {
        digest.take(unit.slot(slot));
    }
    digest.take_count(unit.code_len());
    for instruction in 0..unit.code_len() {
        digest.take(unit.opcode(instruction));
        digest.take(unit.operand(instruction));
    }
    digest.0
}

/// The digest of below and join over all ordered pairs of some kinds: int,
/// null, unusable, the first twelve classes, the last class, and the first
/// class number that the unit does not have.
pub fn kinds_digest(unit: &Unit) -> u32 {
    let count = unit.class_count() as u16; // at most 256
    let mut kinds = vec![Kind::Int, Kind::Null, Kind::Unusable];
    kinds.extend((0..count.min(12)).map(Kind::Class));
    kinds.push(Kind::Class(count - 1));
    kinds.push(Kind::Class(count));

    let mut digest = Digest(0);
    for &a in &kinds {
        for &b in &kinds {
            digest.take(below(unit, a, b));
            digest.take(join(unit, a, b).code());
        }
    }
    digest.0
}

#[cfg(test)]
mod tests {
    use super::*;
    use crate::draft::Draft;

    /// The digests were worked out by another program as well.
    #[test]
    fn read_line() {
        assert_eq!(
            verdict(3, &Draft::rule_u().bytes()),
            "3 read 124 bytes depth 2 classes 4 slots 2 instructions 10 \
             digest 975604657 kinds 155336921"
        );
    }

    #[test]
    fn refused_line() {
        assert_eq!(verdict(7, &[]), "7 refused 1 place 0 layer 0 fault 0 detail 0");
        let mut draft = Draft::rule_u();
        draft.depth = 17;
        assert_eq!(verdict(0, &draft.bytes()), "0 refused 2 place 0 layer 0 fault 0 detail 0");
    }

    #[test]
    fn digest_step() {
        let mut digest = Digest(0);
        digest.take(5u8);
        digest.take(7u16);
        assert_eq!(digest.0, 5 * 31 + 7);
        let mut digest = Digest(0xFFFF_FFFF);
        digest.take(true);
        assert_eq!(digest.0, 0xFFFF_FFE2);
    }
}
