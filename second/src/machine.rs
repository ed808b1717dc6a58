//! The tagged machine: runs of a unit in which every value knows whether it is
//! an int or a reference, and every step checks what it uses.

use crate::code::{Action, Field};
use crate::kinds::{below, Kind};
use crate::unit::{Refusal, Unit, INT, MAX_FIELDS};

/// The most objects that a run has; the vessel is one of them.
pub const MAX_OBJECTS: usize = 32;

/// The refusal numbers of announcing a vessel.
pub mod refusal {
    /// The class is unknown or not below the kind of slot 0.
    pub const VESSEL_CLASS: u32 = 18;
    /// A cell is not zero at a reference or past the fields.
    pub const VESSEL_CELL: u32 = 19;
}

/// A value of a run.
#[derive(Clone, Copy, Debug, PartialEq, Eq)]
pub enum Value {
    Int(i32),
    /// 0 for null, or the number of an object that stands, from 1.
    Reference(usize),
}

/// The null reference.
pub const NULL: Value = Value::Reference(0);

/// An object: its class and a value for each field of the class.
#[derive(Clone, Debug, PartialEq, Eq)]
pub struct Object {
    pub class: u16,
    pub fields: Vec<Value>,
}

impl Object {
    /// A fresh object of a class: its ints 0, its references null.
    fn new(unit: &Unit, class: u16) -> Object {
        let number = usize::from(class);
        let fields = (0..unit.field_count(number))
            .map(|field| if unit.field(number, field) == INT { Value::Int(0) } else { NULL })
            .collect();
        Object { class, fields }
    }
}

/// A vessel as it is announced: its class and eight cells.
#[derive(Clone, Copy, Debug, PartialEq, Eq)]
pub struct Vessel {
    pub class: u16,
    pub cells: [i32; MAX_FIELDS],
}

/// The faults of a step.
#[derive(Clone, Copy, Debug, PartialEq, Eq)]
pub enum Fault {
    /// There are too few operands.
    TooFew = 1,
    /// There would be more operands than the head allows.
    TooDeep = 2,
    /// An operand does not conform.
    Mismatch = 3,
    /// A slot is loaded that is unset.
    Unset = 4,
    /// A row is posted where one is held.
    RowHeld = 5,
    /// A run returns with no row held.
    NoRow = 6,
    /// The instruction lies outside the code.
    Outside = 7,
}

impl Fault {
    pub fn number(self) -> u32 {
        self as u32
    }
}

/// The stops of a step.
#[derive(Clone, Copy, Debug, PartialEq, Eq)]
pub enum Stop {
    /// A field of null is asked for.
    NullOwner = 1,
    /// A new object is asked for where as many stand as there may be.
    Full = 2,
}

impl Stop {
    pub fn number(self) -> u32 {
        self as u32
    }
}

/// How a step, or a run, comes out.
#[derive(Clone, Copy, Debug, PartialEq, Eq)]
pub enum Outcome {
    GoesOn,
    /// The run returned with this berth.
    Returned(i32),
    Stopped(Stop),
    Fault(Fault),
}

/// Where a run stands.
#[derive(Clone, Debug, PartialEq, Eq)]
pub struct Configuration {
    /// The instruction that is next, perhaps outside the code.
    pub instruction: usize,
    /// The operands, the top last.
    pub operands: Vec<Value>,
    /// For each slot its value, if it is set.
    pub slots: Vec<Option<Value>>,
    /// The objects; the one of number `n` is at `n - 1`.
    pub objects: Vec<Object>,
    /// The berth of the row that is held, if one is.
    pub row: Option<i32>,
}

impl Configuration {
    /// The start of a run: at instruction 0, with the vessel as object 1 in
    /// slot 0 and nothing else. Refuses a vessel that may not be announced.
    pub fn start(unit: &Unit, vessel: &Vessel) -> Result<Configuration, Refusal> {
        check_vessel(unit, vessel)?;
        let mut object = Object::new(unit, vessel.class);
        for (value, &cell) in object.fields.iter_mut().zip(&vessel.cells) {
            if let Value::Int(int) = value {
                *int = cell;
            }
        }
        let mut slots = vec![None; unit.slot_count()];
        slots[0] = Some(Value::Reference(1));
        Ok(Configuration {
            instruction: 0,
            operands: Vec::new(),
            slots,
            objects: vec![object],
            row: None,
        })
    }

    /// Whether a value of this configuration conforms to a kind.
    pub fn conforms(&self, unit: &Unit, value: Value, kind: Kind) -> bool {
        match (value, kind) {
            (_, Kind::Unusable) => true,
            (Value::Int(_), _) => kind == Kind::Int,
            (NULL, _) => matches!(kind, Kind::Null | Kind::Class(_)),
            (Value::Reference(_), Kind::Class(_)) => {
                below(unit, Kind::Class(self.object(value).class), kind)
            }
            (Value::Reference(_), _) => false,
        }
    }

    /// Makes one step. A step that does not go on leaves all as it is.
    pub fn step(&mut self, unit: &Unit) -> Outcome {
        match self.check(unit) {
            Ok(action) => self.perform(unit, action),
            Err(outcome) => outcome,
        }
    }

    /// All checks of the next step in their order: its action, or how the run ends.
    fn check(&self, unit: &Unit) -> Result<Action, Outcome> {
        if self.instruction >= unit.code_len() {
            return Err(Outcome::Fault(Fault::Outside));
        }
        let action = Action::at(unit, self.instruction);
        let signature = action.signature(unit);
        let Some(kept) = self.operands.len().checked_sub(signature.takes.len()) else {
            return Err(Outcome::Fault(Fault::TooFew));
        };
        let taken = &self.operands[kept..];
        let mut from_top = taken.iter().zip(&signature.takes).rev();
        if from_top.any(|(&value, &kind)| !self.conforms(unit, value, kind)) {
            return Err(Outcome::Fault(Fault::Mismatch));
        }
        match action {
            Action::Load(slot) if self.slots[slot].is_none() => {
                return Err(Outcome::Fault(Fault::Unset));
            }
            Action::Post if self.row.is_some() => return Err(Outcome::Fault(Fault::RowHeld)),
            Action::Return if self.row.is_none() => return Err(Outcome::Fault(Fault::NoRow)),
            Action::Get(_) | Action::Put(_) if taken[0] == NULL => {
                return Err(Outcome::Stopped(Stop::NullOwner));
            }
            Action::New(_) if self.objects.len() >= MAX_OBJECTS => {
                return Err(Outcome::Stopped(Stop::Full));
            }
            _ => {}
        }
        if signature.depth_after(kept) > usize::from(unit.depth()) {
            return Err(Outcome::Fault(Fault::TooDeep));
        }
        Ok(action)
    }

    /// Does what the action says, after all checks.
    fn perform(&mut self, unit: &Unit, action: Action) -> Outcome {
        let mut next = self.instruction + 1;
        match action {
            Action::Push(number) => self.operands.push(Value::Int(number.into())),
            Action::Nil => self.operands.push(NULL),
            Action::Load(slot) => {
                let value = self.slots[slot].expect("the slot is set");
                self.operands.push(value);
            }
            Action::Store(slot) => self.slots[slot] = Some(self.pop()),
            Action::Drop => drop(self.pop()),
            Action::Add => {
                let (a, b) = self.pop_two_ints();
                self.operands.push(Value::Int(a.wrapping_add(b)));
            }
            Action::Less => {
                let (a, b) = self.pop_two_ints();
                self.operands.push(Value::Int((a < b).into()));
            }
            Action::Jump(target) => next = target,
            Action::Branch(target) => {
                if self.pop_int() != 0 {
                    next = target;
                }
            }
            Action::Brnull(target) => {
                if self.pop() == NULL {
                    next = target;
                }
            }
            Action::New(class) => {
                self.objects.push(Object::new(unit, class));
                self.operands.push(Value::Reference(self.objects.len()));
            }
            Action::Get(Field { number, .. }) => {
                let owner = self.pop();
                self.operands.push(self.object(owner).fields[number]);
            }
            Action::Put(Field { number, .. }) => {
                let value = self.pop();
                let owner = self.pop();
                self.object_mut(owner).fields[number] = value;
            }
            Action::Post => self.row = Some(self.pop_int()),
            Action::Return => return Outcome::Returned(self.row.expect("a row is held")),
        }
        self.instruction = next;
        Outcome::GoesOn
    }

    fn pop(&mut self) -> Value {
        self.operands.pop().expect("there are enough operands")
    }

    fn pop_int(&mut self) -> i32 {
        match self.pop() {
            Value::Int(number) => number,
            Value::Reference(_) => unreachable!("the operand is an int"),
        }
    }

    /// The two ints on top, the top one second.
    fn pop_two_ints(&mut self) -> (i32, i32) {
        let b = self.pop_int();
        (self.pop_int(), b)
    }

    /// The object that a value other than null refers to.
    fn object(&self, value: Value) -> &Object {
        &self.objects[object_place(value)]
    }

    fn object_mut(&mut self, value: Value) -> &mut Object {
        &mut self.objects[object_place(value)]
    }
}

/// Where the object that a value refers to is found among the objects.
fn object_place(value: Value) -> usize {
    match value {
        Value::Reference(number @ 1..) => number - 1,
        _ => unreachable!("the value is an object"),
    }
}

/// Refuses a vessel whose class is unknown or not below the kind of slot 0,
/// and then one with a cell that is not zero at a reference or past the fields.
fn check_vessel(unit: &Unit, vessel: &Vessel) -> Result<(), Refusal> {
    let class = usize::from(vessel.class);
    let slot = Kind::from_code(unit.slot(0));
    if class >= unit.class_count() || !below(unit, Kind::Class(vessel.class), slot) {
        return Err(Refusal::new(refusal::VESSEL_CLASS, 0));
    }
    let takes_number =
        |cell: usize| cell < unit.field_count(class) && unit.field(class, cell) == INT;
    match (0..MAX_FIELDS).find(|&cell| vessel.cells[cell] != 0 && !takes_number(cell)) {
        None => Ok(()),
        Some(cell) => Err(Refusal::new(refusal::VESSEL_CELL, cell)),
    }
}

/// How a run came out, and after how many steps.
#[derive(Clone, Copy, Debug, PartialEq, Eq)]
pub struct Run {
    /// `GoesOn` if all the steps allowed were made and the run had not ended.
    pub outcome: Outcome,
    /// The steps made. The step of a return or a stop counts, that of a fault
    /// does not.
    pub steps: u64,
}

/// Makes at most `max_steps` steps of a run with this vessel.
pub fn run(unit: &Unit, vessel: &Vessel, max_steps: u64) -> Result<Run, Refusal> {
    let mut configuration = Configuration::start(unit, vessel)?;
    for made in 0..max_steps {
        match configuration.step(unit) {
            Outcome::GoesOn => {}
            outcome @ Outcome::Fault(_) => return Ok(Run { outcome, steps: made }),
            outcome => return Ok(Run { outcome, steps: made + 1 }),
        }
    }
    Ok(Run { outcome: Outcome::GoesOn, steps: max_steps })
}

#[cfg(test)]
mod tests {
    use super::*;
    use crate::draft::{Class, Draft, Instruction};
    use crate::unit::{op, read};

    /// A vessel of this class with these first cells.
    fn vessel(class: u16, first: &[i32]) -> Vessel {
        let mut cells = [0; MAX_FIELDS];
        cells[..first.len()].copy_from_slice(first);
        Vessel { class, cells }
    }

    /// Rule U's head, classes and slots with an int and a reference field more
    /// in class 4 and a reference slot more, and other code.
    fn draft(depth: u8, code: &[Instruction]) -> Draft {
        let mut draft = Draft::rule_u();
        draft.depth = depth;
        draft.classes.push(Class::new(1, &[INT, INT, 2]));
        draft.slots.push(2);
        draft.code = code.to_vec();
        draft
    }

    /// The outcome of a run of this code with a ferry, and the steps made.
    fn ferry_run(depth: u8, code: &[Instruction]) -> (Outcome, u64) {
        let bytes = draft(depth, code).bytes();
        let unit = read(&bytes).unwrap();
        let Run { outcome, steps } = run(&unit, &vessel(2, &[30, -7]), 1000).unwrap();
        (outcome, steps)
    }

    /// The outcome of one step of this code after a change to the start. Only a
    /// step that goes on changes the configuration.
    fn changed_step(
        depth: u8,
        code: &[Instruction],
        change: impl Fn(&mut Configuration),
    ) -> Outcome {
        let bytes = draft(depth, code).bytes();
        let unit = read(&bytes).unwrap();
        let mut configuration = Configuration::start(&unit, &vessel(2, &[])).unwrap();
        change(&mut configuration);
        let before = configuration.clone();
        let outcome = configuration.step(&unit);
        assert_eq!(configuration == before, outcome != Outcome::GoesOn);
        outcome
    }

    fn fault(fault: Fault) -> Outcome {
        Outcome::Fault(fault)
    }

    #[test]
    fn rule_u_runs() {
        let bytes = Draft::rule_u().bytes();
        let unit = &read(&bytes).unwrap();
        let made = |cell| run(unit, &vessel(2, &[cell]), 100).unwrap();
        assert_eq!(made(30), Run { outcome: Outcome::Returned(1), steps: 8 });
        assert_eq!(made(40), Run { outcome: Outcome::Returned(2), steps: 9 });
        assert_eq!(made(i32::MIN), Run { outcome: Outcome::Returned(1), steps: 8 });
        assert_eq!(made(i32::MAX), Run { outcome: Outcome::Returned(2), steps: 9 });
    }

    #[test]
    fn budgets() {
        let bytes = Draft::rule_u().bytes();
        let unit = &read(&bytes).unwrap();
        for budget in 0..8 {
            let paused = Run { outcome: Outcome::GoesOn, steps: budget };
            assert_eq!(run(unit, &vessel(2, &[30]), budget), Ok(paused));
        }
        let returned = Run { outcome: Outcome::Returned(1), steps: 8 };
        assert_eq!(run(unit, &vessel(2, &[30]), 8), Ok(returned));
    }

    #[test]
    fn vessels() {
        let mut draft = draft(2, &[(op::RETURN, 0)]);
        let refused = |draft: &Draft, vessel: Vessel| {
            let refusal = run(&read(&draft.bytes()).unwrap(), &vessel, 0).err();
            refusal.map(|refusal| (refusal.refusal, refusal.place))
        };
        assert_eq!(refused(&draft, vessel(1, &[5])), None);
        assert_eq!(refused(&draft, vessel(3, &[-5])), None);
        assert_eq!(refused(&draft, vessel(4, &[1, 2])), None);
        assert_eq!(refused(&draft, vessel(0, &[])), Some((18, 0)));
        assert_eq!(refused(&draft, vessel(5, &[])), Some((18, 0)));
        assert_eq!(refused(&draft, vessel(0xFFFF, &[0, 1])), Some((18, 0)));
        assert_eq!(refused(&draft, vessel(0, &[1])), Some((18, 0)));
        assert_eq!(refused(&draft, vessel(3, &[1, 1])), Some((19, 1)));
        assert_eq!(refused(&draft, vessel(4, &[1, 2, 3, 4])), Some((19, 2)));
        assert_eq!(refused(&draft, vessel(2, &[0, 0, 0, 0, 0, 0, 0, -1])), Some((19, 7)));
        draft.slots[0] = 2;
        assert_eq!(refused(&draft, vessel(1, &[])), Some((18, 0)));
        assert_eq!(refused(&draft, vessel(3, &[])), Some((18, 0)));
        assert_eq!(refused(&draft, vessel(2, &[])), None);
    }

    #[test]
    fn start() {
        let bytes = draft(2, &[(op::RETURN, 0)]).bytes();
        let unit = &read(&bytes).unwrap();
        let start = Configuration::start(unit, &vessel(4, &[7, -8])).unwrap();
        let fields = vec![Value::Int(7), Value::Int(-8), NULL];
        assert_eq!(start.instruction, 0);
        assert_eq!(start.operands, []);
        assert_eq!(start.slots, [Some(Value::Reference(1)), None, None]);
        assert_eq!(start.objects, [Object { class: 4, fields }]);
        assert_eq!(start.row, None);
    }

    #[test]
    fn conforming() {
        let bytes = draft(2, &[(op::RETURN, 0)]).bytes();
        let unit = &read(&bytes).unwrap();
        let start = Configuration::start(unit, &vessel(2, &[])).unwrap();
        let kinds = [
            Kind::Int,
            Kind::Null,
            Kind::Unusable,
            Kind::Class(0),
            Kind::Class(1),
            Kind::Class(2),
            Kind::Class(3),
        ];
        let conforming = |value| kinds.map(|kind| start.conforms(unit, value, kind));
        let int = [true, false, true, false, false, false, false];
        assert_eq!(conforming(Value::Int(0)), int);
        assert_eq!(conforming(Value::Int(1)), int);
        assert_eq!(conforming(NULL), [false, true, true, true, true, true, true]);
        let ferry = [false, false, true, true, true, true, false];
        assert_eq!(conforming(Value::Reference(1)), ferry);
    }

    // ---- What the instructions do ----

    /// The berth that a run of this code at depth 16 returns.
    fn berth(code: &[Instruction]) -> i32 {
        let mut code = code.to_vec();
        code.extend([(op::POST, 0), (op::RETURN, 0)]);
        match ferry_run(16, &code).0 {
            Outcome::Returned(berth) => berth,
            outcome => panic!("{outcome:?}"),
        }
    }

    #[test]
    fn numbers() {
        assert_eq!(berth(&[(op::PUSH, 0x7FFF)]), 32_767);
        assert_eq!(berth(&[(op::PUSH, 0x8000)]), -32_768);
        assert_eq!(berth(&[(op::PUSH, 3), (op::PUSH, 0xFFFF), (op::ADD, 0)]), 2);
        assert_eq!(berth(&[(op::PUSH, 3), (op::PUSH, 4), (op::LESS, 0)]), 1);
        assert_eq!(berth(&[(op::PUSH, 4), (op::PUSH, 3), (op::LESS, 0)]), 0);
        assert_eq!(berth(&[(op::PUSH, 3), (op::PUSH, 3), (op::LESS, 0)]), 0);
        assert_eq!(berth(&[(op::PUSH, 0xFFFF), (op::PUSH, 0), (op::LESS, 0)]), 1);
        assert_eq!(berth(&[(op::PUSH, 3), (op::PUSH, 4), (op::DROP, 0)]), 3);
    }

    #[test]
    fn sums_wrap() {
        let bytes = draft(
            2,
            &[
                (op::LOAD, 0),
                (op::GET, 8),
                (op::PUSH, 1),
                (op::ADD, 0),
                (op::POST, 0),
                (op::RETURN, 0),
            ],
        )
        .bytes();
        let unit = &read(&bytes).unwrap();
        let made = run(unit, &vessel(2, &[i32::MAX]), 10).unwrap();
        assert_eq!(made.outcome, Outcome::Returned(i32::MIN));
    }

    #[test]
    fn slots_and_fields() {
        assert_eq!(berth(&[(op::LOAD, 0), (op::GET, 8)]), 30);
        assert_eq!(berth(&[(op::LOAD, 0), (op::DROP, 0), (op::NEW, 2), (op::GET, 17)]), 0);
        assert_eq!(berth(&[(op::PUSH, 6), (op::STORE, 1), (op::LOAD, 1)]), 6);
        // Put into the vessel, get from it again under another class number.
        let code = [
            (op::LOAD, 0),
            (op::PUSH, 9),
            (op::PUT, 8),
            (op::LOAD, 0),
            (op::STORE, 0),
            (op::LOAD, 0),
            (op::GET, 16),
        ];
        assert_eq!(berth(&code), 9);
        // A new object has its own fields.
        let code = [(op::NEW, 1), (op::PUSH, 5), (op::PUT, 8), (op::LOAD, 0), (op::GET, 8)];
        assert_eq!(berth(&code), 30);
    }

    #[test]
    fn ways() {
        let to_five = |first: Instruction, second: Instruction| {
            [
                first,
                second,
                (op::PUSH, 1),
                (op::POST, 0),
                (op::RETURN, 0),
                (op::PUSH, 2),
                (op::POST, 0),
                (op::RETURN, 0),
            ]
        };
        let berth = |first, second| match ferry_run(4, &to_five(first, second)).0 {
            Outcome::Returned(berth) => berth,
            outcome => panic!("{outcome:?}"),
        };
        assert_eq!(berth((op::NIL, 0), (op::JUMP, 5)), 2);
        assert_eq!(berth((op::PUSH, 0), (op::BRANCH, 5)), 1);
        assert_eq!(berth((op::PUSH, 1), (op::BRANCH, 5)), 2);
        assert_eq!(berth((op::PUSH, 0xFFFF), (op::BRANCH, 5)), 2);
        assert_eq!(berth((op::NIL, 0), (op::BRNULL, 5)), 2);
        assert_eq!(berth((op::LOAD, 0), (op::BRNULL, 5)), 1);
        assert_eq!(berth((op::NEW, 0), (op::BRNULL, 5)), 1);
    }

    #[test]
    fn return_leaves_operands_alone() {
        let code = [(op::PUSH, 1), (op::PUSH, 2), (op::POST, 0), (op::RETURN, 0)];
        assert_eq!(ferry_run(2, &code), (Outcome::Returned(2), 4));
    }

    // ---- One run for each fault and each stop ----

    #[test]
    fn fault_numbers() {
        let faults = [
            Fault::TooFew,
            Fault::TooDeep,
            Fault::Mismatch,
            Fault::Unset,
            Fault::RowHeld,
            Fault::NoRow,
            Fault::Outside,
        ];
        assert_eq!(faults.map(Fault::number), [1, 2, 3, 4, 5, 6, 7]);
        assert_eq!([Stop::NullOwner, Stop::Full].map(Stop::number), [1, 2]);
    }

    #[test]
    fn too_few() {
        let takers = [
            (op::STORE, 1),
            (op::DROP, 0),
            (op::ADD, 0),
            (op::LESS, 0),
            (op::BRANCH, 0),
            (op::BRNULL, 0),
            (op::GET, 8),
            (op::PUT, 8),
            (op::POST, 0),
        ];
        for taker in takers {
            assert_eq!(ferry_run(2, &[taker]), (fault(Fault::TooFew), 0), "{taker:?}");
        }
        for taker in [(op::ADD, 0), (op::LESS, 0), (op::PUT, 8)] {
            assert_eq!(ferry_run(2, &[(op::PUSH, 1), taker]), (fault(Fault::TooFew), 1));
        }
    }

    #[test]
    fn too_deep() {
        for depth in 0..=16 {
            let code = [(op::PUSH, 1), (op::JUMP, 0)];
            let steps = 2 * u64::from(depth);
            assert_eq!(ferry_run(depth, &code), (fault(Fault::TooDeep), steps));
        }
        for pusher in [(op::PUSH, 0), (op::NIL, 0), (op::LOAD, 0), (op::NEW, 0)] {
            assert_eq!(ferry_run(0, &[pusher]), (fault(Fault::TooDeep), 0), "{pusher:?}");
        }
    }

    #[test]
    fn mismatch() {
        let cases: [&[Instruction]; 13] = [
            &[(op::NIL, 0), (op::STORE, 1)],
            &[(op::PUSH, 0), (op::STORE, 0)],
            &[(op::LOAD, 0), (op::STORE, 0), (op::NEW, 1), (op::STORE, 2)],
            &[(op::NIL, 0), (op::PUSH, 1), (op::ADD, 0)],
            &[(op::PUSH, 1), (op::NIL, 0), (op::LESS, 0)],
            &[(op::NIL, 0), (op::BRANCH, 0)],
            &[(op::PUSH, 0), (op::BRNULL, 0)],
            &[(op::PUSH, 0), (op::GET, 8)],
            &[(op::LOAD, 0), (op::GET, 24)],
            &[(op::LOAD, 0), (op::NIL, 0), (op::PUT, 8)],
            &[(op::NEW, 0), (op::PUSH, 1), (op::PUT, 8)],
            &[(op::NEW, 4), (op::NEW, 3), (op::PUT, 34)],
            &[(op::LOAD, 0), (op::POST, 0)],
        ];
        for code in cases {
            let steps = code.len() as u64 - 1;
            assert_eq!(ferry_run(2, code), (fault(Fault::Mismatch), steps), "{code:?}");
        }
        // A ferry conforms to the kind of slot 2 and of class 4's last field.
        let code = [(op::NEW, 4), (op::LOAD, 0), (op::PUT, 34), (op::LOAD, 0), (op::STORE, 2)];
        assert_eq!(ferry_run(2, &code), (fault(Fault::Outside), 5));
    }

    #[test]
    fn unset() {
        assert_eq!(ferry_run(2, &[(op::LOAD, 1)]), (fault(Fault::Unset), 0));
        assert_eq!(ferry_run(2, &[(op::LOAD, 2)]), (fault(Fault::Unset), 0));
        let code = [(op::NIL, 0), (op::STORE, 2), (op::LOAD, 2), (op::LOAD, 1)];
        assert_eq!(ferry_run(2, &code), (fault(Fault::Unset), 3));
    }

    #[test]
    fn row_held() {
        let code = [(op::PUSH, 1), (op::POST, 0), (op::PUSH, 2), (op::POST, 0), (op::RETURN, 0)];
        assert_eq!(ferry_run(2, &code), (fault(Fault::RowHeld), 3));
    }

    #[test]
    fn no_row() {
        assert_eq!(ferry_run(2, &[(op::RETURN, 0)]), (fault(Fault::NoRow), 0));
    }

    #[test]
    fn outside() {
        assert_eq!(ferry_run(2, &[(op::PUSH, 1)]), (fault(Fault::Outside), 1));
        let code = [(op::PUSH, 0), (op::BRANCH, 0)];
        assert_eq!(ferry_run(2, &code), (fault(Fault::Outside), 2));
    }

    #[test]
    fn null_owner() {
        assert_eq!(
            ferry_run(2, &[(op::NIL, 0), (op::GET, 8)]),
            (Outcome::Stopped(Stop::NullOwner), 2)
        );
        assert_eq!(
            ferry_run(2, &[(op::NIL, 0), (op::PUSH, 1), (op::PUT, 8)]),
            (Outcome::Stopped(Stop::NullOwner), 3)
        );
        // A null value is no null owner.
        assert_eq!(
            ferry_run(2, &[(op::NEW, 4), (op::NIL, 0), (op::PUT, 34)]),
            (fault(Fault::Outside), 3)
        );
    }

    #[test]
    fn full() {
        // The vessel stands, so 31 new objects go on and the next one stops.
        let code = [(op::NEW, 3), (op::DROP, 0), (op::JUMP, 0)];
        assert_eq!(ferry_run(2, &code), (Outcome::Stopped(Stop::Full), 31 * 3 + 1));
    }

    // ---- Which of two checks comes first ----

    #[test]
    fn too_few_before_mismatch() {
        assert_eq!(ferry_run(2, &[(op::NIL, 0), (op::ADD, 0)]), (fault(Fault::TooFew), 1));
        assert_eq!(ferry_run(2, &[(op::LOAD, 0), (op::LESS, 0)]), (fault(Fault::TooFew), 1));
        assert_eq!(ferry_run(2, &[(op::NIL, 0), (op::PUT, 8)]), (fault(Fault::TooFew), 1));
    }

    #[test]
    fn too_few_before_row_held() {
        let code = [(op::PUSH, 1), (op::POST, 0), (op::POST, 0)];
        assert_eq!(ferry_run(2, &code), (fault(Fault::TooFew), 2));
    }

    #[test]
    fn too_few_before_null_owner() {
        // The only operand is null and would be of the right kind.
        let code = [(op::NIL, 0), (op::PUT, 34)];
        assert_eq!(ferry_run(2, &code), (fault(Fault::TooFew), 1));
    }

    #[test]
    fn mismatch_before_row_held() {
        let code = [(op::PUSH, 1), (op::POST, 0), (op::NIL, 0), (op::POST, 0)];
        assert_eq!(ferry_run(2, &code), (fault(Fault::Mismatch), 3));
    }

    #[test]
    fn mismatch_before_null_owner() {
        let code = [(op::NIL, 0), (op::NIL, 0), (op::PUT, 8)];
        assert_eq!(ferry_run(2, &code), (fault(Fault::Mismatch), 2));
    }

    #[test]
    fn unset_before_too_deep() {
        assert_eq!(ferry_run(0, &[(op::LOAD, 1)]), (fault(Fault::Unset), 0));
        assert_eq!(ferry_run(1, &[(op::NIL, 0), (op::LOAD, 2)]), (fault(Fault::Unset), 1));
    }

    #[test]
    fn full_before_too_deep() {
        // Slot 0 takes any class. 31 objects are made before the one that is
        // asked for at full depth.
        let mut draft = draft(1, &[]);
        draft.slots[0] = 0;
        draft.code = [(op::NEW, 0), (op::STORE, 0)].repeat(30);
        draft.code.extend([(op::NEW, 0), (op::NEW, 0)]);
        let bytes = draft.bytes();
        let unit = &read(&bytes).unwrap();
        let made = run(unit, &vessel(2, &[]), 100).unwrap();
        assert_eq!(made, Run { outcome: Outcome::Stopped(Stop::Full), steps: 62 });
        // With one object fewer there it is the depth.
        draft.code.splice(..2, [(op::NIL, 0), (op::STORE, 0)]);
        let bytes = draft.bytes();
        let unit = &read(&bytes).unwrap();
        let made = run(unit, &vessel(2, &[]), 100).unwrap();
        assert_eq!(made, Run { outcome: fault(Fault::TooDeep), steps: 61 });
    }

    /// More operands than the head allows are never there in a run, but the
    /// depth is still the last check of every step, also where it does not grow.
    #[test]
    fn all_others_before_too_deep() {
        let int = Value::Int(1);
        let operands = |values: &[Value]| {
            let values = values.to_vec();
            move |configuration: &mut Configuration| configuration.operands = values.clone()
        };
        let step = |code: &[Instruction], values: &[Value]| changed_step(0, code, operands(values));
        assert_eq!(step(&[(op::JUMP, 0)], &[int]), fault(Fault::TooDeep));
        assert_eq!(step(&[(op::DROP, 0)], &[int]), Outcome::GoesOn);
        assert_eq!(step(&[(op::POST, 0)], &[int, int]), fault(Fault::TooDeep));
        assert_eq!(step(&[(op::POST, 0)], &[int, NULL]), fault(Fault::Mismatch));
        assert_eq!(step(&[(op::RETURN, 0)], &[int]), fault(Fault::NoRow));
        assert_eq!(step(&[(op::GET, 8)], &[NULL]), Outcome::Stopped(Stop::NullOwner));
        assert_eq!(step(&[(op::GET, 8)], &[Value::Reference(1)]), fault(Fault::TooDeep));
        let held = |values: &[Value]| {
            let values = values.to_vec();
            move |configuration: &mut Configuration| {
                configuration.operands = values.clone();
                configuration.row = Some(3);
            }
        };
        assert_eq!(changed_step(0, &[(op::POST, 0)], held(&[int, int])), fault(Fault::RowHeld));
        assert_eq!(changed_step(0, &[(op::RETURN, 0)], held(&[int])), fault(Fault::TooDeep));
        assert_eq!(changed_step(0, &[(op::RETURN, 0)], held(&[])), Outcome::Returned(3));
        let outside = |configuration: &mut Configuration| {
            configuration.operands = vec![int];
            configuration.instruction = 1;
        };
        assert_eq!(changed_step(0, &[(op::JUMP, 0)], outside), fault(Fault::Outside));
    }
}
