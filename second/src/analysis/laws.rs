//! Tests of what every analysis must keep: the laws of order, join, effect and
//! writing, and that states say the truth about runs.

use super::{rows_types, three, Analysis, Row, Rows, Slots, Types};
use crate::draft::{random_instruction, Draft, Instruction, Shape, Tree};
use crate::kinds::{below, Kind};
use crate::machine::{Configuration, Outcome, Vessel};
use crate::random::Random;
use crate::sample::{Near, Sample};
use crate::unit::{op, read, Unit, INT, MAX_FIELDS};

/// A random shape with few classes, slots and instructions.
fn small_shape(random: &mut Random) -> Shape {
    Shape {
        depth: random.between(0, 6) as u8,
        classes: random.between(1, 7),
        tree: *random.pick(&[Tree::Chain, Tree::Star, Tree::Deep, Tree::Any]),
        new_fields: random.between(1, 3),
        slots: random.between(1, 5),
        code: random.between(10, 30),
    }
}

// ---- Laws of states ----

/// The order, the join and the effects on these states keep the laws.
fn check_laws<A: Analysis>(analysis: &A, unit: &Unit, states: &[A::State]) {
    for a in states {
        assert!(analysis.below(a, a));
        for b in states {
            assert_eq!(analysis.below(a, b) && analysis.below(b, a), a == b);
            check_join(analysis, states, a, b);
            if analysis.below(a, b) {
                for c in states {
                    assert!(analysis.below(a, c) || !analysis.below(b, c));
                }
                check_monotone(analysis, unit, a, b);
            }
        }
    }
}

/// The join is above both and below every other state that is; where there is
/// such a state it is not refused.
fn check_join<A: Analysis>(analysis: &A, states: &[A::State], a: &A::State, b: &A::State) {
    let joined = analysis.join(a, b);
    if let Some(joined) = &joined {
        assert!(analysis.below(a, &joined.state) && analysis.below(b, &joined.state));
        assert_eq!(joined.rose, joined.state != *a);
        assert_eq!(joined.rose, !analysis.below(b, a));
    }
    for upper in states {
        if analysis.below(a, upper) && analysis.below(b, upper) {
            let least = joined.as_ref().is_some_and(|j| analysis.below(&j.state, upper));
            assert!(least, "{a:?} {b:?} {upper:?}");
        }
    }
}

/// What an effect accepts it accepts for the state below, with an after-state below.
fn check_monotone<A: Analysis>(analysis: &A, unit: &Unit, lower: &A::State, upper: &A::State) {
    for instruction in 0..unit.code_len() {
        if let Ok(upper_after) = analysis.effect(instruction, upper) {
            let after = analysis.effect(instruction, lower).expect("accepted above");
            assert!(analysis.below(&after, &upper_after));
        }
    }
}

/// A writing is read as its state whatever follows, and not if it is cut off.
fn check_writing<A: Analysis>(analysis: &A, random: &mut Random, state: &A::State) {
    let mut bytes = analysis.writing(state);
    let whole = bytes.len();
    for length in 0..whole {
        assert!(analysis.read(&bytes[..length]).is_err());
    }
    for _ in 0..3 {
        let read = analysis.read(&bytes).expect("a writing is read");
        assert_eq!((&read.state, read.length), (state, whole));
        bytes.push(random.byte());
    }
}

/// Bytes that are read begin with the writing of the state.
fn check_reading<A: Analysis>(analysis: &A, bytes: &[u8]) {
    if let Ok(read) = analysis.read(bytes) {
        assert_eq!(analysis.writing(&read.state), bytes[..read.length]);
    }
}

/// All laws on random states of a unit.
fn check_random_states<S: Sample>(analysis: &S, unit: &Unit, random: &mut Random) {
    let mut states = vec![analysis.start()];
    for _ in 0..4 {
        let instruction = random.less_than(unit.code_len());
        let state = analysis.fitting(random, instruction);
        for near in [Near::Same, Near::Above, Near::Below, Near::Around] {
            states.push(analysis.near(random, instruction, &state, near));
        }
    }
    check_laws(analysis, unit, &states);
    for state in &states {
        check_writing(analysis, random, state);
        check_reading(analysis, &analysis.damaged(random, state));
    }
}

#[test]
fn laws_hold_for_random_states() {
    let random = &mut Random::new(1);
    for _ in 0..60 {
        let shape = small_shape(random);
        let bytes = Draft::random(random, shape).bytes();
        let unit = read(&bytes).unwrap();
        check_random_states(&Types { unit }, &unit, random);
        check_random_states(&Slots { unit }, &unit, random);
        check_random_states(&Rows { unit }, &unit, random);
        check_random_states(&three(unit), &unit, random);
        check_random_states(&rows_types(unit), &unit, random);
    }
}

/// The states that are made to lie above or below another one do.
#[test]
fn near_states_lie_as_asked() {
    fn check<S: Sample>(analysis: &S, unit: &Unit, random: &mut Random) {
        let instruction = random.less_than(unit.code_len());
        let state = analysis.fitting(random, instruction);
        let above = analysis.near(random, instruction, &state, Near::Above);
        let below = analysis.near(random, instruction, &state, Near::Below);
        assert!(analysis.below(&state, &above) && analysis.below(&below, &state));
        assert_eq!(analysis.near(random, instruction, &state, Near::Same), state);
    }
    let random = &mut Random::new(2);
    for _ in 0..300 {
        let shape = small_shape(random);
        let bytes = Draft::random(random, shape).bytes();
        let unit = read(&bytes).unwrap();
        check(&Types { unit }, &unit, random);
        check(&Slots { unit }, &unit, random);
        check(&Rows { unit }, &unit, random);
    }
}

/// All states of rule U.
#[test]
fn laws_hold_for_all_states() {
    let bytes = Draft::rule_u().bytes();
    let unit = read(&bytes).unwrap();
    let mut kinds = vec![Kind::Int, Kind::Null, Kind::Unusable];
    kinds.extend((0..4).map(Kind::Class));
    let mut types = vec![vec![]];
    for &bottom in &kinds {
        types.push(vec![bottom]);
        types.extend(kinds.iter().map(|&top| vec![bottom, top]));
    }
    let rows = [Row::None, Row::Held, Row::Perhaps];
    check_laws(&Types { unit }, &unit, &types);
    check_laws(&Slots { unit }, &unit, &[0, 1, 2, 3]);
    check_laws(&Rows { unit }, &unit, &rows);

    // Pairs with the states that are at most one deep.
    types.retain(|state| state.len() <= 1);
    let mut rows_types_states = Vec::new();
    let mut three_states = Vec::new();
    for state in &types {
        for row in rows {
            rows_types_states.push((row, state.clone()));
            three_states.extend((0..4).map(|set| (state.clone(), (set, row))));
        }
    }
    check_laws(&rows_types(unit), &unit, &rows_types_states);
    check_laws(&three(unit), &unit, &three_states);
}

// ---- States and runs ----

/// A random unit whose code, read from the start to the end, is accepted at
/// most places, so that runs of it get far.
fn guided_draft(random: &mut Random) -> Draft {
    let shape = Shape { depth: random.between(1, 6) as u8, ..small_shape(random) };
    let mut draft = Draft::random(random, shape);
    let fields = draft.field_operands();
    let mut state = None;
    for instruction in 0..shape.code {
        for _ in 0..8 {
            draft.code[instruction] = guided_instruction(random, &fields, shape);
            let bytes = draft.bytes();
            let three = three(read(&bytes).unwrap());
            let before = state.clone().unwrap_or(three.start());
            if let Ok(after) = three.effect(instruction, &before) {
                state = Some(after);
                break;
            }
        }
    }
    draft
}

/// A random instruction that seldom ends the run or leaves the way.
fn guided_instruction(random: &mut Random, fields: &[u16], shape: Shape) -> Instruction {
    loop {
        let instruction = random_instruction(random, fields, shape);
        if !matches!(instruction.0, op::RETURN | op::JUMP) || random.one_in(4) {
            return instruction;
        }
    }
}

/// A random vessel that may be announced.
fn random_vessel(random: &mut Random, unit: &Unit) -> Vessel {
    let slot = Kind::from_code(unit.slot(0));
    let classes: Vec<u16> = (0..unit.class_count() as u16)
        .filter(|&class| below(unit, Kind::Class(class), slot))
        .collect();
    let class = *random.pick(&classes);
    let mut cells = [0; MAX_FIELDS];
    for (field, cell) in cells.iter_mut().enumerate().take(unit.field_count(class.into())) {
        if unit.field(class.into(), field) == INT {
            let any = random.number() as i32;
            *cell = *random.pick(&[0, 1, -1, i32::MAX, i32::MIN, any]);
        }
    }
    Vessel { class, cells }
}

/// Follows the states along a run of at most 200 steps, which at times rise.
/// As long as the effects accept, the states describe the configurations and no
/// forbidden fault is met. Gives the number of steps that were accepted.
fn follow<S: Sample>(analysis: &S, unit: &Unit, vessel: &Vessel, random: &mut Random) -> usize {
    let mut configuration = Configuration::start(unit, vessel).unwrap();
    let mut state = analysis.start();
    assert!(analysis.describes(&state, &configuration));
    for accepted in 0..200 {
        let instruction = configuration.instruction;
        if instruction >= unit.code_len() {
            return accepted;
        }
        if random.one_in(12) {
            let other = analysis.near(random, instruction, &state, Near::Around);
            if let Some(joined) = analysis.join(&state, &other) {
                state = joined.state;
                assert!(analysis.describes(&state, &configuration));
            }
        }
        let Ok(after) = analysis.effect(instruction, &state) else {
            return accepted;
        };
        match configuration.step(unit) {
            Outcome::GoesOn => state = after,
            Outcome::Returned(_) | Outcome::Stopped(_) => return accepted + 1,
            Outcome::Fault(fault) => {
                assert!(!analysis.forbids(fault), "{fault:?} at {instruction}");
                return accepted;
            }
        }
        assert!(analysis.describes(&state, &configuration));
    }
    200
}

#[test]
fn states_describe_runs() {
    let random = &mut Random::new(3);
    let mut accepted = [0; 5];
    for round in 0..1200 {
        let draft = if round % 3 == 0 {
            let shape = small_shape(random);
            Draft::random(random, shape)
        } else {
            guided_draft(random)
        };
        let bytes = draft.bytes();
        let unit = read(&bytes).unwrap();
        for _ in 0..4 {
            let vessel = random_vessel(random, &unit);
            accepted[0] += follow(&Types { unit }, &unit, &vessel, random);
            accepted[1] += follow(&Slots { unit }, &unit, &vessel, random);
            accepted[2] += follow(&Rows { unit }, &unit, &vessel, random);
            accepted[3] += follow(&three(unit), &unit, &vessel, random);
            accepted[4] += follow(&rows_types(unit), &unit, &vessel, random);
        }
    }
    // The runs get somewhere.
    assert!(accepted.iter().all(|&steps| steps >= 20_000), "{accepted:?}");
}
