//! The lines that answer queries on the analyses.

use crate::analysis::{rows_types, three, Analysis, Layer, ReadState, Rows, Slots, Types};
use crate::queries::{Block, Choice, Query};
use crate::unit::Unit;

/// The lines of all queries, each with its line end. Blocks count from 0, and
/// so do the queries of each.
pub fn lines(blocks: &[Block]) -> String {
    let mut lines = String::new();
    for (number, block) in blocks.iter().enumerate() {
        for (query_number, query) in block.queries.iter().enumerate() {
            lines += &format!("{number}.{query_number} {}\n", answer(block.unit, query));
        }
    }
    lines
}

/// The answer to a query on a unit.
pub fn answer(unit: Unit, query: &Query) -> String {
    match query.choice {
        Choice::Types => answer_by(&Types { unit }, query),
        Choice::Slots => answer_by(&Slots { unit }, query),
        Choice::Rows => answer_by(&Rows { unit }, query),
        Choice::Three => answer_by(&three(unit), query),
        Choice::RowsTypes => answer_by(&rows_types(unit), query),
    }
}

/// The answer of an analysis: both readings, the orders and the join if both
/// were read, and the effect on the first if that was read.
fn answer_by<A: Analysis>(analysis: &A, query: &Query) -> String {
    let a = analysis.read(&query.a);
    let b = analysis.read(&query.b);
    let mut fields = vec![reading(analysis, &a), reading(analysis, &b)];
    if let (Ok(a), Ok(b)) = (&a, &b) {
        fields.push(orders(analysis, &a.state, &b.state));
        fields.push(join(analysis, &a.state, &b.state));
    }
    if let Ok(a) = &a {
        fields.push(effect(analysis, usize::from(query.instruction), &a.state));
    }
    fields.join(" | ")
}

fn reading<A: Analysis>(analysis: &A, read: &Result<ReadState<A::State>, Layer>) -> String {
    match read {
        Ok(read) => format!("read {} {}", read.length, hex(&analysis.writing(&read.state))),
        Err(layer) => format!("refused {layer}"),
    }
}

/// Whether A lies below B, and B below A.
fn orders<A: Analysis>(analysis: &A, a: &A::State, b: &A::State) -> String {
    let forth = u8::from(analysis.below(a, b));
    let back = u8::from(analysis.below(b, a));
    format!("below {forth} {back}")
}

fn join<A: Analysis>(analysis: &A, a: &A::State, b: &A::State) -> String {
    match analysis.join(a, b) {
        None => "join refused".into(),
        Some(joined) => {
            let rose = if joined.rose { "rose" } else { "same" };
            format!("join {rose} {}", hex(&analysis.writing(&joined.state)))
        }
    }
}

fn effect<A: Analysis>(analysis: &A, instruction: usize, state: &A::State) -> String {
    match analysis.effect(instruction, state) {
        Ok(after) => format!("effect {}", hex(&analysis.writing(&after))),
        Err(fault) => {
            format!("effect fault {} {} {}", fault.layer, fault.fault.number(), fault.detail)
        }
    }
}

/// Two lowercase digits for each byte, or a dash if there is none.
fn hex(bytes: &[u8]) -> String {
    if bytes.is_empty() {
        return "-".into();
    }
    bytes.iter().map(|byte| format!("{byte:02x}")).collect()
}

#[cfg(test)]
mod tests {
    use super::*;
    use crate::draft::Draft;
    use crate::unit::read;

    /// The answer to a query on rule U.
    fn answer_of(choice: Choice, instruction: u16, a: &[u8], b: &[u8]) -> String {
        let bytes = Draft::rule_u().bytes();
        let query = Query { choice, instruction, a: a.to_vec(), b: b.to_vec() };
        answer(read(&bytes).unwrap(), &query)
    }

    #[test]
    fn all_fields() {
        assert_eq!(
            answer_of(Choice::Types, 2, &[1, 0, 2, 9], &[1, 0, 3]),
            "read 3 010002 | read 3 010003 | below 0 0 | join rose 010001 | effect 020002ffff"
        );
        assert_eq!(
            answer_of(Choice::Rows, 8, &[2], &[1]),
            "read 1 02 | read 1 01 | below 0 1 | join same 02 | effect fault 3 5 0"
        );
        assert_eq!(
            answer_of(Choice::Types, 3, &[2, 0xFF, 0xFE, 0xFF, 0xFF], &[0]),
            "read 5 02fffeffff | read 1 00 | below 0 0 | join refused | effect fault 1 3 1"
        );
    }

    #[test]
    fn fields_left_out() {
        assert_eq!(
            answer_of(Choice::Slots, 5, &[0, 0, 0, 1], &[0, 0, 0]),
            "read 4 00000001 | refused 2 | effect 00000001"
        );
        assert_eq!(
            answer_of(Choice::Three, 0, &[0, 0, 0, 0, 1], &[0, 0, 0, 0, 1, 0]),
            "refused 3 | read 6 000000000100"
        );
        assert_eq!(answer_of(Choice::RowsTypes, 0, &[3], &[0]), "refused 3 | refused 1");
    }

    #[test]
    fn numbered_lines() {
        let bytes = Draft::rule_u().bytes();
        let unit = read(&bytes).unwrap();
        let query = Query { choice: Choice::Rows, instruction: 0, a: vec![], b: vec![9] };
        let queries = vec![query.clone(), query.clone()];
        let blocks = [Block { unit, queries }, Block { unit, queries: vec![query] }];
        let answer = "refused 3 | refused 3";
        assert_eq!(lines(&blocks), format!("0.0 {answer}\n0.1 {answer}\n1.0 {answer}\n"));
        assert_eq!(hex(&[]), "-");
    }
}
