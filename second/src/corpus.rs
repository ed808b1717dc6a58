//! The test corpus: good and damaged units from a fixed seed, the same bytes
//! on every run, and the file form of a list of units.

use crate::draft::{field, field_starts, frame, Class, Contents, Draft, Instruction, Shape, Tree};
use crate::random::Random;
use crate::unit::{
    op, refusal, CLASS_SIZE, HEADER_SIZE, INSTRUCTION_SIZE, INT, MAX_CLASSES, MAX_CODE, MAX_DEPTH,
    MAX_FIELDS, MAX_SLOTS, NULL, SLOT_SIZE, UNUSABLE, VERSION,
};

const SEED: u64 = 0x5EC0_17D0_0000_0001;

/// What the generator knows about a unit by the way it was made.
#[derive(Clone, Copy, Debug, PartialEq, Eq)]
pub enum Expected {
    Read,
    /// Refused with this refusal number at this place.
    Refused(u32, usize),
    /// Changed at random, so either may be.
    Open,
}

/// One unit of the corpus.
#[derive(Clone, Debug)]
pub struct Case {
    pub bytes: Vec<u8>,
    pub expected: Expected,
}

/// The units of the corpus, in order.
pub fn generate() -> Vec<Case> {
    let mut corpus = Corpus { random: Random::new(SEED), cases: Vec::new() };
    corpus.handmade_good();
    corpus.random_good();
    corpus.large_good();
    corpus.prefixes_and_extensions();
    corpus.tags_and_lengths();
    corpus.field_orders();
    corpus.heads();
    corpus.sizes();
    corpus.class_rules();
    corpus.slot_rules();
    corpus.code_rules();
    corpus.large_edges();
    corpus.several_faults();
    corpus.random_changes();
    corpus.noise();
    corpus.cases
}

/// The file form of units: for each a four-byte length and the bytes.
pub fn pack(units: &[&[u8]]) -> Vec<u8> {
    let mut file = Vec::new();
    for unit in units {
        let length = u32::try_from(unit.len()).expect("a unit of the corpus is small");
        file.extend(length.to_be_bytes());
        file.extend(*unit);
    }
    file
}

/// The units of a file, or nothing if the file ends within one.
pub fn unpack(mut file: &[u8]) -> Option<Vec<&[u8]>> {
    let mut units = Vec::new();
    while !file.is_empty() {
        let (length, rest) = file.split_first_chunk::<4>()?;
        let length = usize::try_from(u32::from_be_bytes(*length)).ok()?;
        let (unit, rest) = rest.split_at_checked(length)?;
        units.push(unit);
        file = rest;
    }
    Some(units)
}

/// The sorts of faults that a unit can have, in the order they are judged.
#[derive(Clone, Copy, Debug, PartialEq, Eq, PartialOrd, Ord)]
enum Fault {
    Framing,
    Head,
    ClassSize,
    Class,
    SlotSize,
    Slot,
    CodeSize,
    Code,
}

const FAULTS: [Fault; 8] = [
    Fault::Framing,
    Fault::Head,
    Fault::ClassSize,
    Fault::Class,
    Fault::SlotSize,
    Fault::Slot,
    Fault::CodeSize,
    Fault::Code,
];

/// For each field of a unit the bytes of a record, the most records and the refusal.
const RECORDS: [(usize, usize, u32); 4] = [
    (2, 1, refusal::HEAD),
    (CLASS_SIZE, MAX_CLASSES, refusal::CLASS),
    (SLOT_SIZE, MAX_SLOTS, refusal::SLOT),
    (INSTRUCTION_SIZE, MAX_CODE, refusal::CODE),
];

/// Whether a field of a unit may be of this length.
fn size_is_good(index: usize, length: usize) -> bool {
    let (size, most, _) = RECORDS[index];
    length.is_multiple_of(size) && (1..=most).contains(&(length / size))
}

struct Corpus {
    random: Random,
    cases: Vec<Case>,
}

impl Corpus {
    fn add(&mut self, bytes: Vec<u8>, expected: Expected) {
        self.cases.push(Case { bytes, expected });
    }

    fn add_good(&mut self, draft: &Draft) {
        self.add(draft.bytes(), Expected::Read);
    }

    fn add_bad(&mut self, draft: &Draft, refusal: u32, place: usize) {
        self.add(draft.bytes(), Expected::Refused(refusal, place));
    }

    /// A random good unit with a few classes, slots and instructions.
    fn small_draft(&mut self) -> Draft {
        let random = &mut self.random;
        let shape = Shape {
            depth: random.between(0, usize::from(MAX_DEPTH)) as u8,
            classes: random.between(2, 7),
            tree: *random.pick(&[Tree::Chain, Tree::Star, Tree::Deep, Tree::Any]),
            new_fields: random.between(1, 4),
            slots: random.between(2, 5),
            code: random.between(2, 12),
        };
        Draft::random(random, shape)
    }

    // ---- Good units ----

    fn handmade_good(&mut self) {
        self.add_good(&Draft::rule_u());
        self.add_good(&Draft::smallest());
        self.add_good(&Draft::showcase());
    }

    fn random_good(&mut self) {
        for _ in 0..1000 {
            let random = &mut self.random;
            let depth =
                *random.pick(&[0, 0, 1, 2, 3, 4, 5, 6, 7, 8, 9, 10, 11, 12, 13, 14, 15, 16, 16]);
            let classes = match random.less_than(20) {
                0 => 1,
                1 => random.between(20, 40),
                2 => random.between(11, 14), // about the twelve that the kinds digest takes in
                _ => random.between(2, 10),
            };
            let slots = match random.less_than(10) {
                0 => 1,
                1 => MAX_SLOTS,
                _ => random.between(1, 8),
            };
            let code = match random.less_than(20) {
                0 => 1,
                1 => random.between(40, 100),
                _ => random.between(1, 30),
            };
            let tree = *random.pick(&[Tree::Chain, Tree::Star, Tree::Deep, Tree::Any, Tree::Any]);
            let new_fields = random.between(0, MAX_FIELDS);
            let draft =
                Draft::random(random, Shape { depth, classes, tree, new_fields, slots, code });
            self.add_good(&draft);
        }
    }

    fn large_good(&mut self) {
        let shapes = [
            // depth, classes, tree, new fields, slots, instructions
            (16, MAX_CLASSES, Tree::Any, 2, MAX_SLOTS, MAX_CODE),
            (0, MAX_CLASSES, Tree::Chain, 1, 1, 1),
            (16, MAX_CLASSES, Tree::Star, 8, MAX_SLOTS, 50),
            (8, MAX_CLASSES, Tree::Deep, 1, 2, 100),
            (3, MAX_CLASSES - 1, Tree::Any, 1, 4, 20),
            (4, 1, Tree::Any, 0, 1, MAX_CODE),
            (0, 3, Tree::Chain, 3, MAX_SLOTS, MAX_CODE),
            (2, 5, Tree::Any, 3, 5, MAX_CODE - 1),
            (5, 100, Tree::Chain, 1, 3, 300),
            (6, 130, Tree::Deep, 2, 10, 200),
        ];
        for (depth, classes, tree, new_fields, slots, code) in shapes {
            let shape = Shape { depth, classes, tree, new_fields, slots, code };
            let draft = Draft::random(&mut self.random, shape);
            self.add_good(&draft);
        }
    }

    // ---- Framing ----

    /// All prefixes of some good units, and some bytes too many after others.
    fn prefixes_and_extensions(&mut self) {
        for draft in [Draft::smallest(), Draft::rule_u(), Draft::showcase()] {
            let starts = field_starts(&draft.contents());
            let bytes = draft.bytes();
            for length in 0..bytes.len() {
                let place = starts.into_iter().rfind(|&start| start <= length).unwrap();
                let expected = Expected::Refused(refusal::FRAMING, place);
                self.add(bytes[..length].to_vec(), expected);
            }
        }
        let bases = [Draft::smallest(), Draft::rule_u(), Draft::showcase(), self.small_draft()];
        for draft in bases {
            for filler in [0x00, 0x01, 0x04, 0x05, 0xFF] {
                for extra in 1..=3 {
                    let mut bytes = draft.bytes();
                    let expected = Expected::Refused(refusal::FRAMING, bytes.len());
                    bytes.extend(vec![filler; extra]);
                    self.add(bytes, expected);
                }
            }
            // A whole unit, and a whole field, too many.
            for extra in [draft.bytes(), field(5, &[]), field(4, &draft.contents()[3])] {
                let mut bytes = draft.bytes();
                let expected = Expected::Refused(refusal::FRAMING, bytes.len());
                bytes.extend(extra);
                self.add(bytes, expected);
            }
        }
    }

    fn tags_and_lengths(&mut self) {
        let tags = [0x00, 0x01, 0x02, 0x03, 0x04, 0x05, 0x08, 0x10, 0x7F, 0x80, 0x81, 0xFE, 0xFF];
        let bases = [Draft::smallest(), Draft::rule_u(), self.small_draft()];
        for draft in &bases {
            let contents = draft.contents();
            let starts = field_starts(&contents);
            for index in 0..4 {
                for tag in tags {
                    if tag != index as u8 + 1 {
                        let mut bytes = draft.bytes();
                        bytes[starts[index]] = tag;
                        self.add(bytes, Expected::Refused(refusal::FRAMING, starts[index]));
                    }
                }
            }
        }
        for draft in &bases {
            let contents = draft.contents();
            let starts = field_starts(&contents);
            for index in 0..4 {
                let length = contents[index].len();
                let to_end = draft.bytes().len() - starts[index] - HEADER_SIZE;
                // Past the end: by one, by the high byte alone, by most.
                for wrong in [to_end + 1, to_end + 256, 0x7FFF, 0xFFFF] {
                    let bytes = with_length(draft, starts[index], wrong);
                    self.add(bytes, Expected::Refused(refusal::FRAMING, starts[index]));
                }
                // To the very end, so that the next field is missing.
                if index < 3 {
                    let bytes = with_length(draft, starts[index], to_end);
                    let expected = Expected::Refused(refusal::FRAMING, bytes.len());
                    self.add(bytes, expected);
                }
                // Too short or long within the unit: it depends on the bytes there.
                for wrong in [0, 1, length - 1, length + 1, length + 2, length + 3, length * 256] {
                    if wrong != length && wrong <= 0xFFFF {
                        self.add(with_length(draft, starts[index], wrong), Expected::Open);
                    }
                }
            }
        }
    }

    /// All lists of up to four fields of rule U but the right one: swapped
    /// fields, fields left out and fields twice.
    fn field_orders(&mut self) {
        let contents = Draft::rule_u().contents();
        let fields: Vec<Vec<u8>> =
            (0..4).map(|index| field(index as u8 + 1, &contents[index])).collect();
        for length in 0..=4 {
            for list in 0..4usize.pow(length) {
                let order: Vec<usize> =
                    (0..length).map(|position| list / 4usize.pow(position) % 4).collect();
                let right =
                    order.iter().enumerate().take_while(|&(due, &index)| due == index).count();
                if right < 4 {
                    // The first field that is not the one due is refused where it starts.
                    let place = fields[..right].iter().map(Vec::len).sum();
                    let bytes = order.iter().flat_map(|&index| fields[index].clone()).collect();
                    self.add(bytes, Expected::Refused(refusal::FRAMING, place));
                }
            }
        }
    }

    // ---- Head ----

    fn heads(&mut self) {
        let bases = [Draft::smallest(), self.small_draft()];
        for base in bases {
            for depth in (0..=20).chain([31, 32, 64, 127, 128, 254, 255]) {
                let draft = Draft { depth, ..base.clone() };
                if depth <= MAX_DEPTH {
                    self.add_good(&draft);
                } else {
                    self.add_bad(&draft, refusal::HEAD, 0);
                }
            }
            for version in [0, 2, 3, 4, 16, 17, 127, 128, 129, 254, 255] {
                for depth in [0, 1, 16, 17] {
                    let draft = Draft { version, depth, ..base.clone() };
                    self.add_bad(&draft, refusal::HEAD, 0);
                }
            }
        }
    }

    // ---- Sizes of the fields ----

    fn sizes(&mut self) {
        for length in (0..=6).chain([19, 255, 256, 258]) {
            let mut head = vec![0; length];
            for (byte, value) in head.iter_mut().zip([VERSION, 2]) {
                *byte = value;
            }
            self.sized(0, head);
        }
        // Zero bytes are good classes, slots and instructions.
        let most = CLASS_SIZE * MAX_CLASSES;
        let edges = [most - CLASS_SIZE, most - 1, most, most + 1];
        let over = [most + CLASS_SIZE - 1, most + CLASS_SIZE, most + CLASS_SIZE + 1, 65_531];
        for length in (0..=60).chain(edges).chain(over) {
            self.sized(1, vec![0; length]);
        }
        for length in (0..=70).chain([127, 128, 256, 512, 1024]) {
            self.sized(2, vec![0; length]);
        }
        let most = INSTRUCTION_SIZE * MAX_CODE;
        for length in (0..=13).chain(most - 3..=most + 4).chain([65_535]) {
            self.sized(3, vec![0; length]);
        }
        // Record 0 is good and all after it are bad: a wrong size comes before them.
        for length in (1..=60).chain([CLASS_SIZE * (MAX_CLASSES + 1)]) {
            self.bad_after_first(1, length);
        }
        for length in 1..=70 {
            self.bad_after_first(2, length);
        }
        for length in (1..=12).chain([INSTRUCTION_SIZE * (MAX_CODE + 1)]) {
            self.bad_after_first(3, length);
        }
    }

    /// The smallest unit with other contents of one field, good if the size is.
    fn sized(&mut self, index: usize, content: Vec<u8>) {
        let (_, _, refusal) = RECORDS[index];
        let good = size_is_good(index, content.len());
        let mut contents = Draft::smallest().contents();
        contents[index] = content;
        let expected = if good { Expected::Read } else { Expected::Refused(refusal, 0) };
        self.add(frame(&contents), expected);
    }

    /// The smallest unit with a field of zero bytes for one record, then FE to the length.
    fn bad_after_first(&mut self, index: usize, length: usize) {
        let (size, _, refusal) = RECORDS[index];
        let mut contents = Draft::smallest().contents();
        contents[index] = (0..length).map(|at| if at < size { 0 } else { 0xFE }).collect();
        let expected = if !size_is_good(index, length) {
            Expected::Refused(refusal, 0)
        } else if length > size {
            Expected::Refused(refusal, 1)
        } else {
            Expected::Read
        };
        self.add(frame(&contents), expected);
    }

    // ---- Class rule ----

    fn class_rules(&mut self) {
        // Every fault at every class of two units.
        for base in [Draft::rule_u(), Draft::showcase()] {
            for number in 0..base.classes.len() {
                for class in bad_classes(&base, number) {
                    let mut draft = base.clone();
                    draft.classes[number] = class;
                    self.add_bad(&draft, refusal::CLASS, number);
                }
            }
        }
        // Random faults at random classes of random units.
        for _ in 0..150 {
            let mut draft = self.small_draft();
            let number = self.random.less_than(draft.classes.len());
            draft.classes[number] = self.random.pick(&bad_classes(&draft, number)).clone();
            self.add_bad(&draft, refusal::CLASS, number);
        }
        // What is still good.
        let mut bases = vec![Draft::rule_u(), Draft::showcase()];
        bases.extend((0..8).map(|_| self.small_draft()));
        for base in bases {
            for number in 1..base.classes.len() {
                for class in good_classes(&base, number) {
                    let mut draft = base.clone();
                    draft.classes[number] = class;
                    self.add_good(&draft);
                }
            }
        }
    }

    // ---- Slot rule ----

    fn slot_rules(&mut self) {
        let mut bases = vec![Draft::smallest(), Draft::rule_u(), Draft::showcase()];
        bases.extend((0..3).map(|_| self.small_draft()));
        for base in bases {
            for number in 0..base.slots.len() {
                for kind in bad_slots(&base, number) {
                    let mut draft = base.clone();
                    draft.slots[number] = kind;
                    self.add_bad(&draft, refusal::SLOT, number);
                }
                for kind in good_slots(&base, number) {
                    let mut draft = base.clone();
                    draft.slots[number] = kind;
                    self.add_good(&draft);
                }
            }
        }
        // Each of 32 slots.
        for number in 0..MAX_SLOTS {
            let mut draft = Draft::rule_u();
            draft.slots = (0..MAX_SLOTS as u16).map(|slot| slot % 4).collect();
            draft.slots[number] = *self.random.pick(&bad_slots(&draft, number));
            self.add_bad(&draft, refusal::SLOT, number);
        }
    }

    // ---- Code rule ----

    fn code_rules(&mut self) {
        // Every opcode that there is not.
        let base = Draft::rule_u();
        for opcode in op::COUNT as u8..=0xFF {
            let number = usize::from(opcode) % base.code.len();
            let operand = if self.random.one_in(2) { 0 } else { self.random.number() as u16 };
            self.add_instruction(&base, number, (opcode, operand), false);
        }
        // Every bad and good operand at the first, the last and a random place.
        let mut bases = vec![Draft::rule_u(), Draft::showcase()];
        bases.extend((0..2).map(|_| self.small_draft()));
        for base in &bases {
            let last = base.code.len() - 1;
            for instruction in bad_instructions(base) {
                for number in [0, last, self.random.between(0, last)] {
                    self.add_instruction(base, number, instruction, false);
                }
            }
            for instruction in good_instructions(base) {
                let number = self.random.between(0, last);
                self.add_instruction(base, number, instruction, true);
            }
        }
        let base = Draft::smallest();
        for instruction in bad_instructions(&base) {
            self.add_instruction(&base, 0, instruction, false);
        }
        for instruction in good_instructions(&base) {
            self.add_instruction(&base, 0, instruction, true);
        }
        // Get and put of each field number of each class.
        let base = Draft::showcase();
        for opcode in [op::GET, op::PUT] {
            for operand in 0..8 * base.classes.len() as u16 {
                let class = &base.classes[usize::from(operand) / MAX_FIELDS];
                let good = operand % 8 < u16::from(class.count);
                self.add_instruction(&base, 4, (opcode, operand), good);
            }
        }
    }

    /// The unit with another instruction at a place.
    fn add_instruction(
        &mut self,
        base: &Draft,
        number: usize,
        instruction: Instruction,
        good: bool,
    ) {
        let mut draft = base.clone();
        draft.code[number] = instruction;
        if good {
            self.add_good(&draft);
        } else {
            self.add_bad(&draft, refusal::CODE, number);
        }
    }

    // ---- Edges of the largest units ----

    fn large_edges(&mut self) {
        let shape = Shape {
            depth: 1,
            classes: MAX_CLASSES,
            tree: Tree::Any,
            new_fields: 0,
            slots: 2,
            code: 4,
        };
        let base = Draft::random(&mut self.random, shape);
        let last = MAX_CLASSES - 1;
        let mut good = base.clone();
        good.classes[last] = Class::new(254, &[255, 0, INT, 255, 1, 2, 254, 128]);
        good.slots[1] = 255;
        good.code =
            vec![(op::NEW, 255), (op::GET, 8 * 255 + 7), (op::PUT, 8 * 255), (op::RETURN, 0)];
        self.add_good(&good);
        let bad_last = [Class::new(254, &[256]), Class::new(255, &[]), Class::new(256, &[])];
        for class in bad_last {
            let mut draft = good.clone();
            draft.classes[last] = class;
            self.add_bad(&draft, refusal::CLASS, last);
        }
        let mut draft = good.clone();
        draft.slots[1] = 256;
        self.add_bad(&draft, refusal::SLOT, 1);
        for instruction in [(op::NEW, 256), (op::GET, 8 * 256), (op::PUT, 8 * 254)] {
            self.add_instruction(&good, 2, instruction, false);
        }

        let shape = Shape {
            depth: 1,
            classes: 3,
            tree: Tree::Any,
            new_fields: 2,
            slots: 2,
            code: MAX_CODE,
        };
        let base = Draft::random(&mut self.random, shape);
        let last = MAX_CODE - 1;
        for opcode in [op::JUMP, op::BRANCH, op::BRNULL] {
            self.add_instruction(&base, last, (opcode, 1023), true);
            self.add_instruction(&base, last, (opcode, 1024), false);
        }
        self.add_instruction(&base, last, (0x0F, 0), false);
        self.add_instruction(&base, 512, (op::LOAD, 2), false);
    }

    // ---- Several faults at once ----

    fn several_faults(&mut self) {
        // Every pair of sorts, some times.
        for (index, &first) in FAULTS.iter().enumerate() {
            for &second in &FAULTS[index + 1..] {
                for _ in 0..4 {
                    self.add_faults(&[first, second]);
                }
            }
        }
        // Every set of three sorts or more.
        for set in 0..1u32 << FAULTS.len() {
            if set.count_ones() >= 3 {
                let chosen = (0..FAULTS.len()).filter(|index| set >> index & 1 == 1);
                let faults: Vec<Fault> = chosen.map(|index| FAULTS[index]).collect();
                self.add_faults(&faults);
            }
        }
        // Two bad records of one sort: the lower is refused.
        for _ in 0..40 {
            let base = self.small_draft();

            let mut draft = base.clone();
            let (low, high) = self.two_numbers(base.classes.len());
            for number in [low, high] {
                draft.classes[number] = self.random.pick(&bad_classes(&base, number)).clone();
            }
            self.add_bad(&draft, refusal::CLASS, low);

            let mut draft = base.clone();
            let (low, high) = self.two_numbers(base.slots.len());
            for number in [low, high] {
                draft.slots[number] = *self.random.pick(&bad_slots(&base, number));
            }
            self.add_bad(&draft, refusal::SLOT, low);

            let mut draft = base.clone();
            let (low, high) = self.two_numbers(base.code.len());
            for number in [low, high] {
                draft.code[number] = *self.random.pick(&bad_instructions(&base));
            }
            self.add_bad(&draft, refusal::CODE, low);
        }
    }

    /// A random unit with these faults. The sort that is judged first is refused.
    fn add_faults(&mut self, faults: &[Fault]) {
        let base = self.small_draft();
        let mut draft = base.clone();
        let mut expected = Vec::new();
        for &fault in faults {
            match fault {
                Fault::Head => {
                    (draft.version, draft.depth) =
                        *self.random.pick(&[(0, 2), (2, 2), (1, 17), (1, 255), (9, 99)]);
                    expected.push((fault, refusal::HEAD, 0));
                }
                Fault::Class => {
                    let number = self.random.less_than(base.classes.len());
                    draft.classes[number] = self.random.pick(&bad_classes(&base, number)).clone();
                    expected.push((fault, refusal::CLASS, number));
                }
                Fault::Slot => {
                    let number = self.random.less_than(base.slots.len());
                    draft.slots[number] = *self.random.pick(&bad_slots(&base, number));
                    expected.push((fault, refusal::SLOT, number));
                }
                Fault::Code => {
                    let number = self.random.less_than(base.code.len());
                    draft.code[number] = *self.random.pick(&bad_instructions(&base));
                    expected.push((fault, refusal::CODE, number));
                }
                Fault::Framing | Fault::ClassSize | Fault::SlotSize | Fault::CodeSize => {}
            }
        }
        let mut contents = draft.contents();
        for &fault in faults {
            let (index, refusal) = match fault {
                Fault::ClassSize => (1, refusal::CLASS),
                Fault::SlotSize => (2, refusal::SLOT),
                Fault::CodeSize => (3, refusal::CODE),
                _ => continue,
            };
            match self.random.less_than(3) {
                0 => contents[index].clear(),
                1 => contents[index].push(0),
                _ => drop(contents[index].pop()),
            }
            expected.push((fault, refusal, 0));
        }
        let mut bytes = frame(&contents);
        if faults.contains(&Fault::Framing) {
            let place = self.break_framing(&mut bytes, &contents);
            expected.push((Fault::Framing, refusal::FRAMING, place));
        }
        let &(_, refusal, place) = expected.iter().min().expect("there is a fault");
        self.add(bytes, Expected::Refused(refusal, place));
    }

    /// Breaks the framing of a unit and gives the place.
    fn break_framing(&mut self, bytes: &mut Vec<u8>, contents: &Contents) -> usize {
        let starts = field_starts(contents);
        match self.random.less_than(4) {
            0 => {
                let place = bytes.len();
                bytes.push(self.random.byte());
                place
            }
            1 => {
                bytes.pop();
                starts[3]
            }
            2 => {
                let place = *self.random.pick(&starts);
                bytes[place] = self.random.between(5, 255) as u8;
                place
            }
            _ => {
                let place = *self.random.pick(&starts);
                bytes[place + 1] = 0xFF;
                place
            }
        }
    }

    /// Two unequal numbers less than the count, the lower first.
    fn two_numbers(&mut self, count: usize) -> (usize, usize) {
        let low = self.random.less_than(count - 1);
        (low, self.random.between(low + 1, count - 1))
    }

    // ---- Random damage ----

    fn random_changes(&mut self) {
        let mut bases = vec![Draft::rule_u().bytes(), Draft::showcase().bytes()];
        bases.extend((0..80).map(|_| self.small_draft().bytes()));
        for _ in 0..1000 {
            let mut bytes = self.random.pick(&bases).clone();
            self.change_byte(&mut bytes);
            self.add(bytes, Expected::Open);
        }
        for _ in 0..150 {
            let mut bytes = self.random.pick(&bases).clone();
            self.change_byte(&mut bytes);
            self.change_byte(&mut bytes);
            self.add(bytes, Expected::Open);
        }
        for _ in 0..60 {
            let mut bytes = self.random.pick(&bases).clone();
            bytes.remove(self.random.less_than(bytes.len()));
            self.add(bytes, Expected::Open);
        }
        for _ in 0..60 {
            let mut bytes = self.random.pick(&bases).clone();
            bytes.insert(self.random.less_than(bytes.len()), self.random.byte());
            self.add(bytes, Expected::Open);
        }
    }

    /// Changes one byte to another value.
    fn change_byte(&mut self, bytes: &mut [u8]) {
        let random = &mut self.random;
        let byte = &mut bytes[random.less_than(bytes.len())];
        let old = *byte;
        while *byte == old {
            *byte = match random.less_than(6) {
                0 => old.wrapping_add(1),
                1 => old.wrapping_sub(1),
                2 => old ^ 1 << random.less_than(8),
                3 => 0,
                4 => random.between(0, 15) as u8,
                _ => random.byte(),
            };
        }
    }

    /// Random bytes, some after a good head.
    fn noise(&mut self) {
        for index in 0..60 {
            let mut bytes = Vec::new();
            if index % 2 == 0 {
                bytes.extend(field(1, &[VERSION, 3]));
            }
            for _ in 0..self.random.between(0, 60) {
                let byte = if self.random.one_in(2) {
                    self.random.less_than(5) as u8
                } else {
                    self.random.byte()
                };
                bytes.push(byte);
            }
            self.add(bytes, Expected::Open);
        }
    }
}

/// The unit with another length in the header that starts at `start`.
fn with_length(draft: &Draft, start: usize, length: usize) -> Vec<u8> {
    let mut bytes = draft.bytes();
    bytes[start + 1..start + HEADER_SIZE].copy_from_slice(&(length as u16).to_be_bytes());
    bytes
}

/// Records that break the class rule at this number of a good unit, each
/// written to break it in one way only, as far as that can be.
fn bad_classes(draft: &Draft, number: usize) -> Vec<Class> {
    let class_count = draft.classes.len() as u16;
    let own_number = number as u16;
    let class = &draft.classes[number];
    let count = class.fields().len();
    let mut bad = Vec::new();
    let mut change = |edit: &dyn Fn(&mut Class)| {
        let mut changed = class.clone();
        edit(&mut changed);
        bad.push(changed);
    };

    // Unused kinds that are not zero.
    for field in count..MAX_FIELDS {
        for kind in [1, 0x0100, INT] {
            change(&|class| class.kinds[field] = kind);
        }
    }
    for too_many in [9, 10, 16, 128, 255] {
        change(&|class| class.count = too_many);
    }

    if number == 0 {
        for parent in [1, 0x0100, INT] {
            change(&|class| class.parent = parent);
        }
        for fields in [&[0][..], &[INT], &[0, 0], &[INT; 8], &[0; 8]] {
            change(&|class| *class = Class::new(0, fields));
        }
        return bad;
    }

    // Parents that are not lower.
    let parents = [
        own_number,
        own_number + 1,
        class_count,
        class.parent + 0x0100,
        class.parent + 0x8000,
        INT,
    ];
    for parent in parents {
        change(&|class| class.parent = parent);
    }
    // Lower parents with other fields.
    for (parent, record) in draft.classes[..number].iter().enumerate() {
        if !class.fields().starts_with(record.fields()) {
            change(&|class| class.parent = parent as u16);
        }
    }
    let inherited = draft.classes[usize::from(class.parent)].fields();
    // Fewer fields than the parent.
    for fewer in 0..inherited.len() {
        change(&|class| *class = Class::new(class.parent, &inherited[..fewer]));
    }
    // The last field no longer counted.
    if count > 0 && class.kinds[count - 1] != 0 {
        change(&|class| class.count -= 1);
    }
    // Other kinds than the parent's.
    for (field, &kind) in inherited.iter().enumerate() {
        if kind == INT {
            change(&|class| class.kinds[field] = 0);
            change(&|class| class.kinds[field] = own_number);
        } else {
            change(&|class| class.kinds[field] = INT);
            change(&|class| class.kinds[field] = (kind + 1) % class_count);
        }
    }
    // Kinds that no field may have.
    for field in inherited.len()..count {
        for kind in bad_kinds(class_count) {
            change(&|class| class.kinds[field] = kind);
        }
    }
    bad
}

/// Other records that keep the class rule at this number, not 0, of a good unit.
fn good_classes(draft: &Draft, number: usize) -> Vec<Class> {
    let class = &draft.classes[number];
    let mut good = Vec::new();
    for (parent, record) in draft.classes[..number].iter().enumerate() {
        if parent != usize::from(class.parent) && class.fields().starts_with(record.fields()) {
            good.push(Class { parent: parent as u16, ..class.clone() });
        }
    }
    // The last class is no parent and may get more fields.
    let last = draft.classes.len() - 1;
    if number == last {
        for kind in [INT, 0, number as u16] {
            let mut fields = class.fields().to_vec();
            while fields.len() < MAX_FIELDS {
                fields.push(kind);
                good.push(Class::new(class.parent, &fields));
            }
        }
    }
    good
}

/// Codes that are no kind of a slot or field, whatever its number.
fn bad_kinds(class_count: u16) -> [u16; 7] {
    [NULL, UNUSABLE, 0xFFFC, class_count, class_count + 1, class_count + 0x0100, 0x8000]
}

fn bad_slots(draft: &Draft, number: usize) -> Vec<u16> {
    let mut bad = bad_kinds(draft.classes.len() as u16).to_vec();
    if number == 0 {
        bad.push(INT);
    }
    bad
}

fn good_slots(draft: &Draft, number: usize) -> Vec<u16> {
    let mut good = vec![0, draft.classes.len() as u16 - 1];
    if number != 0 {
        good.push(INT);
    }
    good
}

const OPERAND_ZERO: [u8; 6] = [op::NIL, op::DROP, op::ADD, op::LESS, op::POST, op::RETURN];
const OPERAND_SLOT: [u8; 2] = [op::LOAD, op::STORE];
const OPERAND_TARGET: [u8; 3] = [op::JUMP, op::BRANCH, op::BRNULL];
const OPERAND_FIELD: [u8; 2] = [op::GET, op::PUT];

/// Instructions that break the code rule in a good unit.
fn bad_instructions(draft: &Draft) -> Vec<Instruction> {
    let classes = draft.classes.len() as u16;
    let slots = draft.slots.len() as u16;
    let code = draft.code.len() as u16;
    let mut bad = vec![(0x0F, 0), (0x10, 0), (0x80, 0), (0xFF, 0xFFFF)];
    for opcode in OPERAND_ZERO {
        bad.extend([1, 0x0100, 0x8000, 0xFFFF].map(|operand| (opcode, operand)));
    }
    for opcode in OPERAND_SLOT {
        bad.extend([slots, slots + 1, 0x0100, 0xFFFF].map(|operand| (opcode, operand)));
    }
    for opcode in OPERAND_TARGET {
        bad.extend([code, code + 1, code + 0x0100, 0xFFFF].map(|operand| (opcode, operand)));
    }
    bad.extend([classes, classes + 1, 0x0100, 0xFFFF].map(|operand| (op::NEW, operand)));
    for opcode in OPERAND_FIELD {
        bad.extend([8 * classes, 8 * classes + 7, 0x8000, 0xFFFF].map(|operand| (opcode, operand)));
        for (number, class) in draft.classes.iter().enumerate() {
            if usize::from(class.count) < MAX_FIELDS {
                bad.push((opcode, 8 * number as u16 + u16::from(class.count)));
                bad.push((opcode, 8 * number as u16 + 7));
            }
        }
    }
    bad
}

/// Instructions that keep the code rule in a good unit, with the last good operands.
fn good_instructions(draft: &Draft) -> Vec<Instruction> {
    let mut good = Vec::new();
    good.extend([0, 1, 0x0100, 0x7FFF, 0x8000, 0xFFFF].map(|operand| (op::PUSH, operand)));
    good.extend(OPERAND_ZERO.map(|opcode| (opcode, 0)));
    for opcode in OPERAND_SLOT {
        good.extend([(opcode, 0), (opcode, draft.slots.len() as u16 - 1)]);
    }
    for opcode in OPERAND_TARGET {
        good.extend([(opcode, 0), (opcode, draft.code.len() as u16 - 1)]);
    }
    good.extend([(op::NEW, 0), (op::NEW, draft.classes.len() as u16 - 1)]);
    for opcode in OPERAND_FIELD {
        good.extend(draft.field_operands().iter().map(|&operand| (opcode, operand)));
    }
    good
}

#[cfg(test)]
mod tests {
    use super::*;
    use crate::unit::read;

    /// Reading does what the generator expects.
    #[test]
    fn expectations_hold() {
        for (number, case) in generate().iter().enumerate() {
            let found = match read(&case.bytes) {
                Ok(_) => Expected::Read,
                Err(refusal) => Expected::Refused(refusal.refusal, refusal.place as usize),
            };
            if case.expected != Expected::Open {
                assert_eq!(found, case.expected, "unit {number}");
            }
        }
    }

    #[test]
    fn same_on_every_run() {
        let bytes = |cases: Vec<Case>| cases.into_iter().map(|case| case.bytes).collect::<Vec<_>>();
        assert_eq!(bytes(generate()), bytes(generate()));
    }

    #[test]
    fn large_enough_and_small_enough() {
        let cases = generate();
        let units: Vec<&[u8]> = cases.iter().map(|case| case.bytes.as_slice()).collect();
        assert!(units.len() >= 3500);
        assert!(pack(&units).len() < 1_500_000);
    }

    #[test]
    fn good_units_are_varied() {
        let cases = generate();
        let units: Vec<_> = cases.iter().filter_map(|case| read(&case.bytes).ok()).collect();
        for opcode in 0..op::COUNT as u8 {
            assert!(units
                .iter()
                .any(|unit| (0..unit.code_len()).any(|i| unit.opcode(i) == opcode)));
        }
        for count in [1, 2, 255, 256] {
            assert!(units.iter().any(|unit| unit.class_count() == count), "{count} classes");
        }
        for count in 1..=32 {
            assert!(units.iter().any(|unit| unit.slot_count() == count), "{count} slots");
        }
        for count in [1, 2, 1023, 1024] {
            assert!(units.iter().any(|unit| unit.code_len() == count), "{count} instructions");
        }
        for depth in 0..=16 {
            assert!(units.iter().any(|unit| unit.depth() == depth), "depth {depth}");
        }
    }

    #[test]
    fn packing() {
        let units: [&[u8]; 3] = [&[1, 2, 3], &[], &[4]];
        let file = pack(&units);
        assert_eq!(file, [0, 0, 0, 3, 1, 2, 3, 0, 0, 0, 0, 0, 0, 0, 1, 4]);
        assert_eq!(unpack(&file).unwrap(), units);
        assert_eq!(unpack(&[]).unwrap().len(), 0);
        assert!(unpack(&file[..15]).is_none());
        assert!(unpack(&file[..3]).is_none());
    }
}
