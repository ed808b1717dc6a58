//! Drafts of units: the contents in plain form, good or not, and their bytes.

use crate::random::Random;
use crate::unit::{op, HEADER_SIZE, INT, MAX_FIELDS, VERSION};

/// A class record.
#[derive(Clone, Debug)]
pub struct Class {
    pub parent: u16,
    pub count: u8,
    pub kinds: [u16; MAX_FIELDS],
}

impl Class {
    /// A class with these field kinds, at most eight, and the others zero.
    pub fn new(parent: u16, fields: &[u16]) -> Class {
        let mut kinds = [0; MAX_FIELDS];
        kinds[..fields.len()].copy_from_slice(fields);
        Class { parent, count: fields.len() as u8, kinds }
    }

    /// The kinds of the fields that are used. The count is at most eight.
    pub fn fields(&self) -> &[u16] {
        &self.kinds[..usize::from(self.count)]
    }
}

/// An opcode and its operand.
pub type Instruction = (u8, u16);

/// The contents of the four fields of a unit: head, classes, slots, code.
pub type Contents = [Vec<u8>; 4];

#[derive(Clone, Debug)]
pub struct Draft {
    pub version: u8,
    pub depth: u8,
    pub classes: Vec<Class>,
    pub slots: Vec<u16>,
    pub code: Vec<Instruction>,
}

/// How the classes of a random draft descend from each other.
#[derive(Clone, Copy, Debug)]
pub enum Tree {
    /// Each class is the parent of the next.
    Chain,
    /// The root is the parent of all.
    Star,
    /// The parent is one of the three classes before.
    Deep,
    /// The parent is any lower class.
    Any,
}

/// What a random draft is like.
#[derive(Clone, Copy, Debug)]
pub struct Shape {
    pub depth: u8,
    pub classes: usize,
    pub tree: Tree,
    /// The most fields that a class adds to its parent's.
    pub new_fields: usize,
    pub slots: usize,
    pub code: usize,
}

impl Draft {
    /// The smallest good unit: 38 bytes.
    pub fn smallest() -> Draft {
        Draft {
            version: VERSION,
            depth: 0,
            classes: vec![Class::new(0, &[])],
            slots: vec![0],
            code: vec![(op::RETURN, 0)],
        }
    }

    /// Rule U, the worked example: classes root, vessel, ferry and barge.
    pub fn rule_u() -> Draft {
        Draft {
            version: VERSION,
            depth: 2,
            classes: vec![
                Class::new(0, &[]),
                Class::new(0, &[INT]),
                Class::new(1, &[INT, INT]),
                Class::new(1, &[INT]),
            ],
            slots: vec![1, INT],
            code: vec![
                (op::LOAD, 0),
                (op::GET, 8),
                (op::PUSH, 40),
                (op::LESS, 0),
                (op::BRANCH, 7),
                (op::PUSH, 2),
                (op::JUMP, 8),
                (op::PUSH, 1),
                (op::POST, 0),
                (op::RETURN, 0),
            ],
        }
    }

    /// A good unit with all opcodes, fields of each sort and a class of eight fields.
    pub fn showcase() -> Draft {
        Draft {
            version: VERSION,
            depth: 16,
            classes: vec![
                Class::new(0, &[]),
                Class::new(0, &[INT]),
                Class::new(1, &[INT, 0]),
                Class::new(2, &[INT, 0, 6]),
                Class::new(3, &[INT, 0, 6, 4, INT, 5, 0, 7]),
                Class::new(4, &[INT, 0, 6, 4, INT, 5, 0, 7]),
                Class::new(0, &[]),
                Class::new(3, &[INT, 0, 6, 7]),
            ],
            slots: vec![7, INT, 0, 6],
            code: vec![
                (op::PUSH, 0xFFFF),
                (op::STORE, 1),
                (op::NEW, 7),
                (op::STORE, 0),
                (op::LOAD, 0),
                (op::GET, 8 * 7 + 3),
                (op::BRNULL, 9),
                (op::LOAD, 3),
                (op::JUMP, 10),
                (op::NIL, 0),
                (op::DROP, 0),
                (op::LOAD, 0),
                (op::LOAD, 1),
                (op::PUSH, 1),
                (op::ADD, 0),
                (op::PUT, 8 * 7),
                (op::LOAD, 1),
                (op::PUSH, 9),
                (op::LESS, 0),
                (op::BRANCH, 22),
                (op::PUSH, 3),
                (op::POST, 0),
                (op::RETURN, 0),
            ],
        }
    }

    /// A random good unit of this shape.
    pub fn random(random: &mut Random, shape: Shape) -> Draft {
        let mut draft = Draft { version: VERSION, depth: shape.depth, ..Draft::smallest() };
        for number in 1..shape.classes {
            let parent = match shape.tree {
                Tree::Chain => number - 1,
                Tree::Star => 0,
                Tree::Deep => random.between(number.saturating_sub(3), number - 1),
                Tree::Any => random.less_than(number),
            };
            let mut fields = draft.classes[parent].fields().to_vec();
            for _ in 0..random.between(0, shape.new_fields) {
                if fields.len() < MAX_FIELDS {
                    fields.push(random_kind(random, shape.classes, number));
                }
            }
            draft.classes.push(Class::new(parent as u16, &fields));
        }
        draft.slots = vec![random.less_than(shape.classes) as u16];
        for _ in 1..shape.slots {
            let kind = random_kind(random, shape.classes, shape.classes - 1);
            draft.slots.push(kind);
        }
        let fields = draft.field_operands();
        draft.code = (0..shape.code).map(|_| random_instruction(random, &fields, shape)).collect();
        draft
    }

    /// The good operands of get and put, for a good draft.
    pub fn field_operands(&self) -> Vec<u16> {
        let mut operands = Vec::new();
        for (number, class) in self.classes.iter().enumerate() {
            for field in 0..usize::from(class.count) {
                operands.push((MAX_FIELDS * number + field) as u16);
            }
        }
        operands
    }

    /// The contents of the four fields.
    pub fn contents(&self) -> Contents {
        let mut classes = Vec::new();
        for class in &self.classes {
            classes.extend(class.parent.to_be_bytes());
            classes.push(class.count);
            classes.extend(class.kinds.iter().flat_map(|kind| kind.to_be_bytes()));
        }
        let slots = self.slots.iter().flat_map(|kind| kind.to_be_bytes()).collect();
        let mut code = Vec::new();
        for (opcode, operand) in &self.code {
            code.push(*opcode);
            code.extend(operand.to_be_bytes());
        }
        [vec![self.version, self.depth], classes, slots, code]
    }

    /// The bytes of the unit.
    pub fn bytes(&self) -> Vec<u8> {
        frame(&self.contents())
    }
}

/// A random kind of a field or slot, at times the favoured class.
fn random_kind(random: &mut Random, classes: usize, favoured: usize) -> u16 {
    match random.less_than(8) {
        0..=3 => INT,
        4 => favoured as u16,
        5 => (classes - 1) as u16,
        _ => random.less_than(classes) as u16,
    }
}

/// A random good instruction, given the good operands of get and put.
pub fn random_instruction(random: &mut Random, fields: &[u16], shape: Shape) -> Instruction {
    let opcode = random.less_than(op::COUNT) as u8;
    match opcode {
        op::PUSH => {
            let numbers = [0, 1, 2, 40, 0x00FF, 0x0100, 0x7FFF, 0x8000, 0xFFFE, 0xFFFF];
            let any = random.number() as u16;
            (opcode, if random.one_in(2) { any } else { *random.pick(&numbers) })
        }
        op::LOAD | op::STORE => (opcode, random_number(random, shape.slots)),
        op::JUMP | op::BRANCH | op::BRNULL => (opcode, random_number(random, shape.code)),
        op::NEW => (opcode, random_number(random, shape.classes)),
        op::GET | op::PUT if fields.is_empty() => (op::NIL, 0),
        op::GET | op::PUT => (opcode, *random.pick(fields)),
        _ => (opcode, 0),
    }
}

/// A random number less than the count, often the last one.
fn random_number(random: &mut Random, count: usize) -> u16 {
    let number = if random.one_in(4) { count - 1 } else { random.less_than(count) };
    number as u16
}

/// The bytes of a unit with these contents. Each is at most 65,535 bytes long.
pub fn frame(contents: &Contents) -> Vec<u8> {
    let mut bytes = Vec::new();
    for (index, content) in contents.iter().enumerate() {
        bytes.extend(field(index as u8 + 1, content));
    }
    bytes
}

/// The bytes of one field.
pub fn field(tag: u8, contents: &[u8]) -> Vec<u8> {
    let length = u16::try_from(contents.len()).expect("a field has at most 65,535 bytes");
    let mut bytes = vec![tag];
    bytes.extend(length.to_be_bytes());
    bytes.extend(contents);
    bytes
}

/// Where each of the four fields starts in the framed bytes.
pub fn field_starts(contents: &Contents) -> [usize; 4] {
    let mut starts = [0; 4];
    for index in 1..4 {
        starts[index] = starts[index - 1] + HEADER_SIZE + contents[index - 1].len();
    }
    starts
}
