//! The corpus of states: good units with queries on their analyses, from a
//! fixed seed, the same on every run.

use crate::analysis::{rows_types, three, Rows, Slots, Types};
use crate::draft::{Draft, Shape, Tree};
use crate::kinds::Kind;
use crate::queries::{Choice, Query};
use crate::random::Random;
use crate::sample::{Near, Sample};
use crate::unit::{op, read, Unit, MAX_CLASSES, MAX_CODE, MAX_DEPTH, MAX_SLOTS};

const SEED: u64 = 0x5EC0_17D0_0000_0002;

/// The number of random units.
const RANDOM_UNITS: usize = 150;

/// The number of random queries on each unit.
const RANDOM_QUERIES: usize = 60;

/// Once in how many units all ways to cut off a writing are asked for.
const CUT_UNITS: usize = 10;

/// The analyses in the order in which random queries go through them.
const TURNS: [Choice; 10] = [
    Choice::Types,
    Choice::Three,
    Choice::RowsTypes,
    Choice::Types,
    Choice::Three,
    Choice::Slots,
    Choice::Types,
    Choice::Three,
    Choice::RowsTypes,
    Choice::Rows,
];

/// The bytes of each unit and the queries on it. The first unit is rule U.
pub fn generate() -> Vec<(Vec<u8>, Vec<Query>)> {
    let mut random = Random::new(SEED);
    let drafts = drafts(&mut random);
    let mut blocks = Vec::new();
    for (number, draft) in drafts.iter().enumerate() {
        let bytes = draft.bytes();
        let unit = read(&bytes).expect("a unit of the corpus is good");
        let mut queries = Vec::new();
        if number == 0 {
            queries.extend(all_small(&unit));
        }
        for turn in 0..RANDOM_QUERIES {
            let choice = TURNS[turn % TURNS.len()];
            queries.push(random_query(&mut random, unit, choice));
        }
        if number % CUT_UNITS == 0 {
            for choice in Choice::ALL {
                queries.extend(all_cuts(&mut random, unit, choice));
            }
        }
        blocks.push((bytes, queries));
    }
    blocks
}

// ---- Units ----

fn drafts(random: &mut Random) -> Vec<Draft> {
    let mut drafts = vec![Draft::rule_u(), Draft::smallest(), Draft::showcase()];
    for number in 0..RANDOM_UNITS {
        let shape = random_shape(random, number);
        drafts.push(Draft::random(random, shape));
    }
    let large = [
        // depth, classes, tree, new fields, slots, instructions
        (16, MAX_CLASSES, Tree::Chain, 1, MAX_SLOTS, 60),
        (7, MAX_CLASSES, Tree::Star, 8, 31, 60),
        (16, MAX_CLASSES, Tree::Deep, 1, 9, 60),
        (9, 30, Tree::Any, 2, 20, MAX_CODE),
    ];
    for (depth, classes, tree, new_fields, slots, code) in large {
        let shape = Shape { depth, classes, tree, new_fields, slots, code };
        drafts.push(Draft::random(random, shape));
    }
    drafts
}

/// A random shape. All depths and all numbers of slots come round in turn.
fn random_shape(random: &mut Random, number: usize) -> Shape {
    let classes = match random.less_than(12) {
        0 => random.between(1, 2),
        1 => random.between(20, 60),
        _ => random.between(3, 12),
    };
    let code = match random.less_than(15) {
        0 => random.between(1, 8),
        1 => random.between(60, 120),
        _ => random.between(20, 45),
    };
    Shape {
        depth: (number % (usize::from(MAX_DEPTH) + 1)) as u8,
        classes,
        tree: *random.pick(&[Tree::Chain, Tree::Star, Tree::Deep, Tree::Deep, Tree::Any]),
        new_fields: random.between(1, 3),
        slots: 1 + number % MAX_SLOTS,
        code,
    }
}

// ---- Random queries ----

/// An instruction of the unit, each opcode that it has as often as any other,
/// but those oftener that the slots and the rows are about, if they take part.
fn random_instruction(random: &mut Random, unit: &Unit, choice: Choice) -> usize {
    let favoured: &[u8] = match choice {
        Choice::Types => &[],
        Choice::Slots => &[op::LOAD, op::STORE],
        Choice::Rows | Choice::RowsTypes => &[op::POST, op::RETURN],
        Choice::Three => &[op::LOAD, op::STORE, op::POST, op::RETURN],
    };
    loop {
        let opcode = if !favoured.is_empty() && random.one_in(4) {
            *random.pick(favoured)
        } else {
            random.less_than(op::COUNT) as u8
        };
        let places: Vec<usize> =
            (0..unit.code_len()).filter(|&place| unit.opcode(place) == opcode).collect();
        if !places.is_empty() {
            return *random.pick(&places);
        }
    }
}

fn random_query(random: &mut Random, unit: Unit, choice: Choice) -> Query {
    let instruction = random_instruction(random, &unit, choice);
    let (a, b) = match choice {
        Choice::Types => random_pair(random, &Types { unit }, instruction),
        Choice::Slots => random_pair(random, &Slots { unit }, instruction),
        Choice::Rows => random_pair(random, &Rows { unit }, instruction),
        Choice::Three => random_pair(random, &three(unit), instruction),
        Choice::RowsTypes => random_pair(random, &rows_types(unit), instruction),
    };
    Query { choice, instruction: instruction as u16, a, b }
}

/// A writing that fits the instruction, and one near it; at times with bytes
/// that follow, at times damaged.
fn random_pair<S: Sample>(
    random: &mut Random,
    analysis: &S,
    instruction: usize,
) -> (Vec<u8>, Vec<u8>) {
    let near = match random.less_than(12) {
        0 => Near::Same,
        1..=3 => Near::Above,
        4..=6 => Near::Below,
        7..=9 => Near::Around,
        _ => Near::Far,
    };
    let a = analysis.fitting(random, instruction);
    let b = analysis.near(random, instruction, &a, near);
    (random_writing(random, analysis, &a), random_writing(random, analysis, &b))
}

fn random_writing<S: Sample>(random: &mut Random, analysis: &S, state: &S::State) -> Vec<u8> {
    if random.one_in(11) {
        return analysis.damaged(random, state);
    }
    let mut bytes = analysis.writing(state);
    if random.one_in(4) {
        bytes.extend(following_bytes(random));
    }
    bytes
}

/// One to six bytes, some of which look like kinds, depths or rows.
fn following_bytes(random: &mut Random) -> Vec<u8> {
    let count = random.between(1, 6);
    let mut byte = || match random.less_than(4) {
        0 => 0xFF,
        1 => random.byte(),
        _ => random.less_than(4) as u8,
    };
    (0..count).map(|_| byte()).collect()
}

// ---- Queries that go through all of something ----

/// A random writing cut off at every length, by turns as A and as B, and the
/// whole one as the other.
fn all_cuts(random: &mut Random, unit: Unit, choice: Choice) -> Vec<Query> {
    let instruction = random_instruction(random, &unit, choice);
    let whole = match choice {
        Choice::Types => fitting_writing(random, &Types { unit }, instruction),
        Choice::Slots => fitting_writing(random, &Slots { unit }, instruction),
        Choice::Rows => fitting_writing(random, &Rows { unit }, instruction),
        Choice::Three => fitting_writing(random, &three(unit), instruction),
        Choice::RowsTypes => fitting_writing(random, &rows_types(unit), instruction),
    };
    let instruction = instruction as u16;
    (0..whole.len())
        .map(|length| {
            let (whole, cut) = (whole.clone(), whole[..length].to_vec());
            let (a, b) = if length % 2 == 0 { (cut, whole) } else { (whole, cut) };
            Query { choice, instruction, a, b }
        })
        .collect()
}

fn fitting_writing<S: Sample>(random: &mut Random, analysis: &S, instruction: usize) -> Vec<u8> {
    let state = analysis.fitting(random, instruction);
    analysis.writing(&state)
}

/// All pairs of some short writings, good and bad, each with the instructions
/// of the unit in turn.
fn all_small(unit: &Unit) -> Vec<Query> {
    let rows: Vec<Vec<u8>> = [&[0][..], &[1], &[2], &[3], &[255], &[]].map(Vec::from).to_vec();
    let slots: Vec<Vec<u8>> =
        [0, 1, 2, 3, 4, 1 << 31].map(|set: u32| set.to_be_bytes().to_vec()).to_vec();
    let mut kinds = vec![Kind::Int.code(), Kind::Null.code(), Kind::Unusable.code(), 0xFFFC];
    kinds.extend(0..=unit.class_count() as u16);
    let types: Vec<Vec<u8>> =
        kinds.iter().map(|kind| [&[1], &kind.to_be_bytes()[..]].concat()).collect();

    let mut queries = Vec::new();
    for (choice, writings) in [(Choice::Rows, rows), (Choice::Slots, slots), (Choice::Types, types)]
    {
        for a in &writings {
            for b in &writings {
                let instruction = (queries.len() % unit.code_len()) as u16;
                queries.push(Query { choice, instruction, a: a.clone(), b: b.clone() });
            }
        }
    }
    // Every row with each of the last two instructions, post and return.
    for row in 0..3 {
        for instruction in unit.code_len() - 2..unit.code_len() {
            let instruction = instruction as u16;
            queries.push(Query { choice: Choice::Rows, instruction, a: vec![row], b: vec![0] });
        }
    }
    queries
}

#[cfg(test)]
mod tests {
    use super::*;
    use crate::lines::lines;
    use crate::queries::{pack_blocks, unpack_blocks};

    #[test]
    fn same_on_every_run() {
        assert_eq!(generate(), generate());
    }

    #[test]
    fn large_enough_and_small_enough() {
        let blocks = generate();
        assert_eq!(blocks[0].0, Draft::rule_u().bytes());
        assert!(blocks.iter().map(|(_, queries)| queries.len()).sum::<usize>() >= 8000);
        assert!(pack_blocks(&blocks).len() < 700_000);
    }

    #[test]
    fn units_are_varied() {
        let blocks = generate();
        let units: Vec<Unit> = blocks.iter().map(|(bytes, _)| read(bytes).unwrap()).collect();
        for depth in 0..=MAX_DEPTH {
            assert!(units.iter().any(|unit| unit.depth() == depth), "depth {depth}");
        }
        for count in 1..=MAX_SLOTS {
            assert!(units.iter().any(|unit| unit.slot_count() == count), "{count} slots");
        }
        for count in [1, 2, MAX_CLASSES] {
            assert!(units.iter().any(|unit| unit.class_count() == count), "{count} classes");
        }
    }

    /// Every opcode is asked for with every analysis.
    #[test]
    fn instructions_are_varied() {
        let mut asked = [[0; op::COUNT]; Choice::ALL.len()];
        for (bytes, queries) in &generate() {
            let unit = read(bytes).unwrap();
            for query in queries {
                let opcode = unit.opcode(usize::from(query.instruction));
                asked[query.choice as usize][usize::from(opcode)] += 1;
            }
        }
        assert!(asked.as_flattened().iter().all(|&count| count >= 20), "{asked:?}");
    }

    /// Every shape of answer comes up many times.
    #[test]
    fn answers_are_varied() {
        let file = pack_blocks(&generate());
        let blocks = unpack_blocks(&file).unwrap();
        let lines = lines(&blocks);
        let shapes = [
            " refused 1",
            " refused 2",
            " refused 3",
            "below 0 0",
            "below 0 1",
            "below 1 0",
            "below 1 1",
            "join rose",
            "join same",
            "join refused",
            "effect fault 1 1 0",
            "effect fault 1 2 0",
            "effect fault 1 3 0",
            "effect fault 1 3 1",
            "effect fault 2 4",
            "effect fault 3 5 0",
            "effect fault 3 6 0",
        ];
        for shape in shapes {
            let count = lines.lines().filter(|line| line.contains(shape)).count();
            assert!(count >= 50, "{shape}: {count}");
        }
        let read = |line: &&str| line.matches(" read ").count() == 2;
        let both_read = lines.lines().filter(read).count();
        assert!(both_read * 10 >= lines.lines().count() * 7);
    }
}
