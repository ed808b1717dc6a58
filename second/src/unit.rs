//! Reading of rule units.
//!
//! A unit is four fields with tags 1 to 4 in this order: head, classes, slots
//! and code. A field is a one-byte tag, a two-byte length and that many bytes.
//! All numbers are unsigned, high byte first.

use std::fmt;
use std::ops::Range;

/// The code of the kind int.
pub const INT: u16 = 0xFFFF;
/// The code of the kind null.
pub const NULL: u16 = 0xFFFE;
/// The code of the kind unusable.
pub const UNUSABLE: u16 = 0xFFFD;

pub const VERSION: u8 = 1;
pub const MAX_DEPTH: u8 = 16;
pub const MAX_CLASSES: usize = 256;
pub const MAX_FIELDS: usize = 8;
pub const MAX_SLOTS: usize = 32;
pub const MAX_CODE: usize = 1024;

/// Bytes of a field's tag and length.
pub const HEADER_SIZE: usize = 3;
/// Bytes of a class record: parent, field count, eight field kinds.
pub const CLASS_SIZE: usize = 19;
/// Bytes of a slot kind.
pub const SLOT_SIZE: usize = 2;
/// Bytes of an instruction: opcode, operand.
pub const INSTRUCTION_SIZE: usize = 3;

/// The opcodes.
pub mod op {
    pub const PUSH: u8 = 0x00;
    pub const NIL: u8 = 0x01;
    pub const LOAD: u8 = 0x02;
    pub const STORE: u8 = 0x03;
    pub const DROP: u8 = 0x04;
    pub const ADD: u8 = 0x05;
    pub const LESS: u8 = 0x06;
    pub const JUMP: u8 = 0x07;
    pub const BRANCH: u8 = 0x08;
    pub const BRNULL: u8 = 0x09;
    pub const NEW: u8 = 0x0A;
    pub const GET: u8 = 0x0B;
    pub const PUT: u8 = 0x0C;
    pub const POST: u8 = 0x0D;
    pub const RETURN: u8 = 0x0E;
    /// The number of opcodes; they are 0 to `COUNT - 1`.
    pub const COUNT: usize = 15;
}

/// The refusal numbers of reading.
pub mod refusal {
    pub const FRAMING: u32 = 1;
    pub const HEAD: u32 = 2;
    pub const CLASS: u32 = 3;
    pub const SLOT: u32 = 4;
    pub const CODE: u32 = 5;
}

/// Why a unit was refused. Reading leaves layer, fault and detail at 0.
#[derive(Clone, Copy, Debug, PartialEq, Eq)]
pub struct Refusal {
    pub refusal: u32,
    pub place: u32,
    pub layer: u32,
    pub fault: u32,
    pub detail: u32,
}

impl Refusal {
    /// A refusal of reading at a place.
    pub fn new(refusal: u32, place: usize) -> Refusal {
        // A place is a record number or an offset of at most four full fields.
        Refusal { refusal, place: place as u32, layer: 0, fault: 0, detail: 0 }
    }
}

impl fmt::Display for Refusal {
    fn fmt(&self, f: &mut fmt::Formatter<'_>) -> fmt::Result {
        write!(
            f,
            "refused {} place {} layer {} fault {} detail {}",
            self.refusal, self.place, self.layer, self.fault, self.detail
        )
    }
}

impl std::error::Error for Refusal {}

/// A unit that was read: the bytes, where each field's contents start, and the
/// counts. The accessors panic when asked for a number past the count.
#[derive(Clone, Copy, Debug)]
pub struct Unit<'a> {
    bytes: &'a [u8],
    head: usize,
    classes: usize,
    slots: usize,
    code: usize,
    class_count: usize,
    slot_count: usize,
    code_len: usize,
}

/// Reads a unit, or refuses it. Nothing is allocated.
pub fn read(bytes: &[u8]) -> Result<Unit<'_>, Refusal> {
    // All framing comes before any contents.
    let head = field_contents(bytes, 0, 1)?;
    let classes = field_contents(bytes, head.end, 2)?;
    let slots = field_contents(bytes, classes.end, 3)?;
    let code = field_contents(bytes, slots.end, 4)?;
    if code.end < bytes.len() {
        return Err(Refusal::new(refusal::FRAMING, code.end));
    }

    check_head(&bytes[head.clone()])?;
    let class_records = check_classes(&bytes[classes.clone()])?;
    let slot_count = check_slots(&bytes[slots.clone()], class_records.len())?;
    let code_len = check_code(&bytes[code.clone()], class_records, slot_count)?;

    Ok(Unit {
        bytes,
        head: head.start,
        classes: classes.start,
        slots: slots.start,
        code: code.start,
        class_count: class_records.len(),
        slot_count,
        code_len,
    })
}

type ClassRecord = [u8; CLASS_SIZE];

/// Where the contents of the field with this tag lie, when it starts at
/// `start`, which is at most the length of the bytes.
fn field_contents(bytes: &[u8], start: usize, tag: u8) -> Result<Range<usize>, Refusal> {
    match bytes[start..] {
        [found, high, low, ref rest @ ..]
            if found == tag && usize::from(number(high, low)) <= rest.len() =>
        {
            let contents = start + HEADER_SIZE;
            Ok(contents..contents + usize::from(number(high, low)))
        }
        _ => Err(Refusal::new(refusal::FRAMING, start)),
    }
}

fn check_head(contents: &[u8]) -> Result<(), Refusal> {
    match contents {
        [VERSION, 0..=MAX_DEPTH] => Ok(()),
        _ => Err(Refusal::new(refusal::HEAD, 0)),
    }
}

fn check_classes(contents: &[u8]) -> Result<&[ClassRecord], Refusal> {
    let classes = records::<CLASS_SIZE>(contents, MAX_CLASSES, refusal::CLASS)?;
    match (0..classes.len()).find(|&class| !class_is_good(classes, class)) {
        None => Ok(classes),
        Some(class) => Err(Refusal::new(refusal::CLASS, class)),
    }
}

/// Whether a class keeps the class rule, when all lower classes do.
fn class_is_good(classes: &[ClassRecord], class: usize) -> bool {
    let record = &classes[class];
    if class == 0 {
        // Parent 0, no fields, and all eight kinds unused.
        return *record == [0; CLASS_SIZE];
    }
    let parent = usize::from(number(record[0], record[1]));
    let count = usize::from(record[2]);
    if parent >= class || count > MAX_FIELDS {
        return false;
    }
    let inherited = usize::from(classes[parent][2]);
    if count < inherited {
        return false;
    }
    let kinds = all_kinds(record);
    let parent_kinds = all_kinds(&classes[parent]);
    // The inherited kinds equal the parent's, so they are good as those are.
    first_kinds(kinds, inherited) == first_kinds(parent_kinds, inherited)
        && kinds_after(kinds, count) == 0
        && (inherited..count).all(|k| is_int_or_class(field_kind(record, k), classes.len()))
}

/// The eight field kinds of a record as one number, the first kind highest.
fn all_kinds(record: &ClassRecord) -> u128 {
    let [_, _, _, kinds @ ..] = record;
    u128::from_be_bytes(*kinds)
}

/// The first `count` of eight kinds as one number.
fn first_kinds(kinds: u128, count: usize) -> u128 {
    kinds.checked_shr(128 - 16 * count as u32).unwrap_or(0)
}

/// Zero exactly when all kinds after the first `count` of eight are zero.
fn kinds_after(kinds: u128, count: usize) -> u128 {
    kinds.checked_shl(16 * count as u32).unwrap_or(0)
}

fn field_kind(record: &ClassRecord, field: usize) -> u16 {
    number(record[3 + 2 * field], record[4 + 2 * field])
}

/// Whether this is a kind that slots and fields may have.
fn is_int_or_class(kind: u16, class_count: usize) -> bool {
    kind == INT || usize::from(kind) < class_count
}

fn check_slots(contents: &[u8], class_count: usize) -> Result<usize, Refusal> {
    let slots = records::<SLOT_SIZE>(contents, MAX_SLOTS, refusal::SLOT)?;
    for (slot, &[high, low]) in slots.iter().enumerate() {
        let kind = number(high, low);
        if !is_int_or_class(kind, class_count) || (slot == 0 && kind == INT) {
            return Err(Refusal::new(refusal::SLOT, slot));
        }
    }
    Ok(slots.len())
}

fn check_code(
    contents: &[u8],
    classes: &[ClassRecord],
    slot_count: usize,
) -> Result<usize, Refusal> {
    let code = records::<INSTRUCTION_SIZE>(contents, MAX_CODE, refusal::CODE)?;
    let limits = operand_limits(classes.len(), slot_count, code.len());
    for (instruction, &[opcode, high, low]) in code.iter().enumerate() {
        let operand = usize::from(number(high, low));
        let limit = limits.get(usize::from(opcode)).copied().unwrap_or(0);
        let mut good = operand < limit;
        if good && (opcode == op::GET || opcode == op::PUT) {
            let field_count = classes[operand / MAX_FIELDS][2];
            good = operand % MAX_FIELDS < usize::from(field_count);
        }
        if !good {
            return Err(Refusal::new(refusal::CODE, instruction));
        }
    }
    Ok(code.len())
}

/// For each opcode the number that its operand must be less than. For get and
/// put this bounds the class only.
fn operand_limits(class_count: usize, slot_count: usize, code_len: usize) -> [usize; op::COUNT] {
    const ANY: usize = 0x10000;
    const ZERO: usize = 1;
    let field = MAX_FIELDS * class_count;
    [
        ANY,         // push
        ZERO,        // nil
        slot_count,  // load
        slot_count,  // store
        ZERO,        // drop
        ZERO,        // add
        ZERO,        // less
        code_len,    // jump
        code_len,    // branch
        code_len,    // brnull
        class_count, // new
        field,       // get
        field,       // put
        ZERO,        // post
        ZERO,        // return
    ]
}

/// The contents as 1 to `most` records of `SIZE` bytes, or the refusal at place 0.
fn records<const SIZE: usize>(
    contents: &[u8],
    most: usize,
    refusal: u32,
) -> Result<&[[u8; SIZE]], Refusal> {
    let (records, rest) = contents.as_chunks::<SIZE>();
    if rest.is_empty() && (1..=most).contains(&records.len()) {
        Ok(records)
    } else {
        Err(Refusal::new(refusal, 0))
    }
}

fn number(high: u8, low: u8) -> u16 {
    u16::from_be_bytes([high, low])
}

impl<'a> Unit<'a> {
    /// The bytes the unit was read from.
    pub fn bytes(&self) -> &'a [u8] {
        self.bytes
    }

    /// The greatest operand depth.
    pub fn depth(&self) -> u8 {
        self.bytes[self.head + 1]
    }

    pub fn class_count(&self) -> usize {
        self.class_count
    }

    /// The parent of a class; the root's is 0.
    pub fn parent(&self, class: usize) -> u16 {
        self.number_at(self.class_at(class))
    }

    pub fn field_count(&self, class: usize) -> usize {
        usize::from(self.bytes[self.class_at(class) + 2])
    }

    /// The code of the kind of a field of a class.
    pub fn field(&self, class: usize, field: usize) -> u16 {
        assert!(field < self.field_count(class), "class {class} has no field {field}");
        self.number_at(self.class_at(class) + 3 + 2 * field)
    }

    pub fn slot_count(&self) -> usize {
        self.slot_count
    }

    /// The code of the kind of a slot.
    pub fn slot(&self, slot: usize) -> u16 {
        assert!(slot < self.slot_count, "no slot {slot}");
        self.number_at(self.slots + SLOT_SIZE * slot)
    }

    /// The number of instructions.
    pub fn code_len(&self) -> usize {
        self.code_len
    }

    pub fn opcode(&self, instruction: usize) -> u8 {
        self.bytes[self.instruction_at(instruction)]
    }

    pub fn operand(&self, instruction: usize) -> u16 {
        self.number_at(self.instruction_at(instruction) + 1)
    }

    fn class_at(&self, class: usize) -> usize {
        assert!(class < self.class_count, "no class {class}");
        self.classes + CLASS_SIZE * class
    }

    fn instruction_at(&self, instruction: usize) -> usize {
        assert!(instruction < self.code_len, "no instruction {instruction}");
        self.code + INSTRUCTION_SIZE * instruction
    }

    fn number_at(&self, offset: usize) -> u16 {
        number(self.bytes[offset], self.bytes[offset + 1])
    }
}

#[cfg(test)]
mod tests {
    use super::*;
    use crate::draft::{frame, Class, Draft};

    /// Rule U, byte for byte.
    #[rustfmt::skip]
    const RULE_U: [u8; 124] = [
        1, 0, 2,   1, 2,
        2, 0, 76,
            0, 0, 0,  0, 0, 0, 0, 0, 0, 0, 0, 0, 0, 0, 0, 0, 0, 0, 0,
            0, 0, 1,  255, 255, 0, 0, 0, 0, 0, 0, 0, 0, 0, 0, 0, 0, 0, 0,
            0, 1, 2,  255, 255, 255, 255, 0, 0, 0, 0, 0, 0, 0, 0, 0, 0, 0, 0,
            0, 1, 1,  255, 255, 0, 0, 0, 0, 0, 0, 0, 0, 0, 0, 0, 0, 0, 0,
        3, 0, 4,   0, 1, 255, 255,
        4, 0, 30,
            0x02, 0, 0,
            0x0B, 0, 8,
            0x00, 0, 40,
            0x06, 0, 0,
            0x08, 0, 7,
            0x00, 0, 2,
            0x07, 0, 8,
            0x00, 0, 1,
            0x0D, 0, 0,
            0x0E, 0, 0,
    ];

    fn refused(bytes: &[u8]) -> (u32, u32) {
        let refusal = read(bytes).expect_err("the unit should be refused");
        assert_eq!((refusal.layer, refusal.fault, refusal.detail), (0, 0, 0));
        (refusal.refusal, refusal.place)
    }

    /// The refusal of rule U after a change to its draft.
    fn refused_after(change: impl Fn(&mut Draft)) -> (u32, u32) {
        let mut draft = Draft::rule_u();
        change(&mut draft);
        refused(&draft.bytes())
    }

    /// The refusal of rule U with other contents in one field (0 to 3).
    fn refused_with(field: usize, contents: &[u8]) -> (u32, u32) {
        let mut all = Draft::rule_u().contents();
        all[field] = contents.to_vec();
        refused(&frame(&all))
    }

    #[test]
    fn rule_u_is_read() {
        assert_eq!(Draft::rule_u().bytes(), RULE_U);
        let unit = read(&RULE_U).unwrap();
        assert_eq!(unit.bytes().len(), 124);
        assert_eq!(unit.depth(), 2);
        assert_eq!(unit.class_count(), 4);
        let classes: Vec<_> = (0..4).map(|c| (unit.parent(c), unit.field_count(c))).collect();
        assert_eq!(classes, [(0, 0), (0, 1), (1, 2), (1, 1)]);
        assert_eq!(unit.field(2, 1), INT);
        assert_eq!(unit.slot_count(), 2);
        assert_eq!((unit.slot(0), unit.slot(1)), (1, INT));
        let code: Vec<_> =
            (0..unit.code_len()).map(|i| (unit.opcode(i), unit.operand(i))).collect();
        assert_eq!(
            code,
            [
                (op::LOAD, 0),
                (op::GET, 8),
                (op::PUSH, 40),
                (op::LESS, 0),
                (op::BRANCH, 7),
                (op::PUSH, 2),
                (op::JUMP, 8),
                (op::PUSH, 1),
                (op::POST, 0),
                (op::RETURN, 0)
            ]
        );
    }

    #[test]
    fn smallest_unit_is_read() {
        let bytes = Draft::smallest().bytes();
        assert_eq!(bytes.len(), 38);
        let unit = read(&bytes).unwrap();
        assert_eq!(
            (unit.depth(), unit.class_count(), unit.slot_count(), unit.code_len()),
            (0, 1, 1, 1)
        );
    }

    #[test]
    fn framing() {
        assert_eq!(refused(&[]), (1, 0));
        assert_eq!(refused(&RULE_U[..5]), (1, 5)); // ends where field 2 should start
        assert_eq!(refused(&RULE_U[..6]), (1, 5)); // header cut off
        assert_eq!(refused(&RULE_U[..83]), (1, 5)); // length past the end
        assert_eq!(refused(&RULE_U[..84]), (1, 84));
        assert_eq!(refused(&RULE_U[..91]), (1, 91));
        assert_eq!(refused(&RULE_U[..123]), (1, 91));
        for start in [0, 5, 84, 91] {
            let mut bytes = RULE_U;
            bytes[start] = 9;
            assert_eq!(refused(&bytes), (1, start as u32));
        }
        let mut bytes = RULE_U.to_vec();
        bytes.extend([0, 0]);
        assert_eq!(refused(&bytes), (1, 124));
    }

    #[test]
    fn framing_comes_before_contents() {
        let mut bytes = RULE_U.to_vec();
        bytes[3] = 2; // version
        bytes[8] = 1; // parent of the root
        assert_eq!(refused(&bytes), (2, 0));
        bytes.push(0);
        assert_eq!(refused(&bytes), (1, 124));
    }

    #[test]
    fn head() {
        assert_eq!(refused_after(|u| u.depth = 17), (2, 0));
        assert!(read(
            &{
                let mut u = Draft::rule_u();
                u.depth = 16;
                u
            }
            .bytes()
        )
        .is_ok());
        assert_eq!(refused_after(|u| u.version = 0), (2, 0));
        assert_eq!(refused_after(|u| u.version = 2), (2, 0));
        assert_eq!(refused_with(0, &[]), (2, 0));
        assert_eq!(refused_with(0, &[1]), (2, 0));
        assert_eq!(refused_with(0, &[1, 2, 0]), (2, 0));
    }

    #[test]
    fn class_sizes() {
        assert_eq!(refused_with(1, &[]), (3, 0));
        assert_eq!(refused_with(1, &[0; 18]), (3, 0));
        assert_eq!(refused_with(1, &[0; 20]), (3, 0));
        assert_eq!(refused_with(1, &[0; 257 * 19]), (3, 0));
        // With all classes empty, the first fault is rule U's get 8.
        assert_eq!(refused_with(1, &[0; 256 * 19]), (5, 1));
    }

    #[test]
    fn class_rules() {
        assert_eq!(refused_after(|u| u.classes[0].parent = 1), (3, 0));
        assert_eq!(refused_after(|u| u.classes[0] = Class::new(0, &[INT])), (3, 0));
        assert_eq!(refused_after(|u| u.classes[0].kinds[7] = 1), (3, 0));
        assert_eq!(refused_after(|u| u.classes[1].parent = 1), (3, 1));
        assert_eq!(refused_after(|u| u.classes[2].parent = 0xFFFF), (3, 2));
        assert_eq!(refused_after(|u| u.classes[2].count = 9), (3, 2));
        assert_eq!(refused_after(|u| u.classes[2].count = 255), (3, 2));
        assert_eq!(refused_after(|u| u.classes[3] = Class::new(1, &[])), (3, 3));
        assert_eq!(refused_after(|u| u.classes[3] = Class::new(1, &[0])), (3, 3));
        assert_eq!(refused_after(|u| u.classes[3] = Class::new(1, &[INT, 4])), (3, 3));
        assert_eq!(refused_after(|u| u.classes[3] = Class::new(1, &[INT, NULL])), (3, 3));
        assert_eq!(refused_after(|u| u.classes[3] = Class::new(1, &[INT, UNUSABLE])), (3, 3));
        assert_eq!(refused_after(|u| u.classes[3].kinds[1] = 1), (3, 3));
        assert_eq!(refused_after(|u| u.classes[3].kinds[7] = 0x0100), (3, 3));
        // A class of a higher number, and the class itself.
        let mut draft = Draft::rule_u();
        draft.classes[2] = Class::new(1, &[INT, 3, 2, 0, 0, 0, 0, 3]);
        assert!(read(&draft.bytes()).is_ok());
        draft.classes[3] = Class::new(2, &[INT, 3, 2, 0, 0, 0, 0, 2]);
        assert_eq!(refused(&draft.bytes()), (3, 3));
    }

    #[test]
    fn slots() {
        assert_eq!(refused_with(2, &[]), (4, 0));
        assert_eq!(refused_with(2, &[0, 1, 0]), (4, 0));
        assert_eq!(refused_with(2, &[0; 66]), (4, 0));
        assert_eq!(refused_after(|u| u.slots[0] = INT), (4, 0));
        assert_eq!(refused_after(|u| u.slots[1] = NULL), (4, 1));
        assert_eq!(refused_after(|u| u.slots[1] = UNUSABLE), (4, 1));
        assert_eq!(refused_after(|u| u.slots[1] = 4), (4, 1));
        // A wrong size comes before any record.
        assert_eq!(refused_with(2, &[0, 1, 255, 254, 0]), (4, 0));
    }

    #[test]
    fn code_sizes() {
        assert_eq!(refused_with(3, &[]), (5, 0));
        assert_eq!(refused_with(3, &[0; 2]), (5, 0));
        assert_eq!(refused_with(3, &[0; 4]), (5, 0));
        assert_eq!(refused_after(|u| u.code = vec![(op::PUSH, 0); 1025]), (5, 0));
        let mut draft = Draft::rule_u();
        draft.code = vec![(op::JUMP, 1023); 1024];
        assert!(read(&draft.bytes()).is_ok());
    }

    #[test]
    fn code_rules() {
        // Rule U has 4 classes, 2 slots and 10 instructions.
        let good = [
            (op::PUSH, 0xFFFF),
            (op::LOAD, 1),
            (op::STORE, 1),
            (op::JUMP, 9),
            (op::BRANCH, 9),
            (op::BRNULL, 0),
            (op::NEW, 3),
            (op::GET, 17),
            (op::PUT, 24),
        ];
        for instruction in good {
            let mut draft = Draft::rule_u();
            draft.code[3] = instruction;
            assert!(read(&draft.bytes()).is_ok(), "{instruction:?}");
        }
        let bad = [
            (op::NIL, 1),
            (op::LOAD, 2),
            (op::STORE, 0x0100),
            (op::DROP, 1),
            (op::ADD, 1),
            (op::LESS, 0x0100),
            (op::JUMP, 10),
            (op::BRANCH, 10),
            (op::BRNULL, 0xFFFF),
            (op::NEW, 4),
            (op::GET, 0),
            (op::GET, 7),
            (op::GET, 18),
            (op::PUT, 25),
            (op::PUT, 32),
            (op::PUT, 0xFFFF),
            (op::POST, 1),
            (op::RETURN, 1),
            (0x0F, 0),
            (0xFF, 0),
        ];
        for instruction in bad {
            assert_eq!(refused_after(|u| u.code[3] = instruction), (5, 3), "{instruction:?}");
        }
    }

    #[test]
    fn lowest_fault_first() {
        assert_eq!(
            refused_after(|u| {
                u.classes[3].count = 9;
                u.classes[2].count = 9;
                u.slots[0] = INT;
            }),
            (3, 2)
        );
        assert_eq!(
            refused_after(|u| {
                u.slots[1] = NULL;
                u.code[0].0 = 0xFF;
            }),
            (4, 1)
        );
        assert_eq!(
            refused_after(|u| {
                u.code[8].0 = 0xFF;
                u.code[6].0 = 0xFF;
            }),
            (5, 6)
        );
    }
}
