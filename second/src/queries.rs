//! Queries on the analyses of a unit, and the file form of units with queries.

use crate::corpus::{pack, unpack};
use crate::unit::{read, Unit};

/// The analyses that a query can be about.
#[derive(Clone, Copy, Debug, PartialEq, Eq)]
pub enum Choice {
    Types,
    Slots,
    Rows,
    /// Types paired with the pair of slots and rows.
    Three,
    /// The pair of rows and types, in this order.
    RowsTypes,
}

impl Choice {
    /// All choices; the number of a choice is its place here, from 1.
    pub const ALL: [Choice; 5] =
        [Choice::Types, Choice::Slots, Choice::Rows, Choice::Three, Choice::RowsTypes];

    fn number(self) -> u8 {
        self as u8 + 1
    }

    fn from_number(number: u8) -> Option<Choice> {
        Choice::ALL.into_iter().find(|choice| choice.number() == number)
    }
}

/// A question about two states, which are given as bytes that may or may not
/// begin with the writing of a state, and about the effect of an instruction.
#[derive(Clone, Debug, PartialEq, Eq)]
pub struct Query {
    pub choice: Choice,
    pub instruction: u16,
    pub a: Vec<u8>,
    pub b: Vec<u8>,
}

/// A unit that was read and the queries on it.
#[derive(Clone, Debug)]
pub struct Block<'a> {
    pub unit: Unit<'a>,
    pub queries: Vec<Query>,
}

/// The bytes of queries, one after the other: the analysis (one byte), the
/// instruction (two), the length of A (two), A, the length of B (two), B.
pub fn query_bytes(queries: &[Query]) -> Vec<u8> {
    let mut bytes = Vec::new();
    for query in queries {
        bytes.push(query.choice.number());
        bytes.extend(query.instruction.to_be_bytes());
        for state in [&query.a, &query.b] {
            let length = u16::try_from(state.len()).expect("a state is short");
            bytes.extend(length.to_be_bytes());
            bytes.extend(state);
        }
    }
    bytes
}

/// The queries of these bytes, or nothing if they are not whole or ask for an
/// analysis that there is not.
fn parse_queries(mut bytes: &[u8]) -> Option<Vec<Query>> {
    let mut queries = Vec::new();
    while let Some((&number, rest)) = bytes.split_first() {
        let choice = Choice::from_number(number)?;
        let (instruction, rest) = split_number(rest)?;
        let (a, rest) = split_counted(rest)?;
        let (b, rest) = split_counted(rest)?;
        queries.push(Query { choice, instruction, a: a.to_vec(), b: b.to_vec() });
        bytes = rest;
    }
    Some(queries)
}

/// A two-byte number and the bytes after it.
fn split_number(bytes: &[u8]) -> Option<(u16, &[u8])> {
    let (number, rest) = bytes.split_first_chunk()?;
    Some((u16::from_be_bytes(*number), rest))
}

/// As many bytes as the two-byte number before them says, and those after them.
fn split_counted(bytes: &[u8]) -> Option<(&[u8], &[u8])> {
    let (length, rest) = split_number(bytes)?;
    rest.split_at_checked(usize::from(length))
}

/// The file form: a list of blobs, by turns a unit and the queries on it.
pub fn pack_blocks(blocks: &[(Vec<u8>, Vec<Query>)]) -> Vec<u8> {
    let queries: Vec<Vec<u8>> = blocks.iter().map(|(_, queries)| query_bytes(queries)).collect();
    let mut blobs: Vec<&[u8]> = Vec::new();
    for ((unit, _), queries) in blocks.iter().zip(&queries) {
        blobs.extend([unit.as_slice(), queries]);
    }
    pack(&blobs)
}

/// The blocks of a file, or what is wrong with it.
pub fn unpack_blocks(file: &[u8]) -> Result<Vec<Block<'_>>, String> {
    let blobs = unpack(file).ok_or("not a whole number of blobs")?;
    let (pairs, rest) = blobs.as_chunks::<2>();
    if !rest.is_empty() {
        return Err("a unit without queries at the end".into());
    }
    pairs
        .iter()
        .enumerate()
        .map(|(number, &[unit, queries])| {
            parse_block(unit, queries).map_err(|error| format!("block {number}: {error}"))
        })
        .collect()
}

fn parse_block<'a>(unit: &'a [u8], queries: &[u8]) -> Result<Block<'a>, String> {
    let unit = read(unit).map_err(|refusal| refusal.to_string())?;
    let queries = parse_queries(queries).ok_or("not a whole number of queries")?;
    let outside = |query: &Query| usize::from(query.instruction) >= unit.code_len();
    if queries.iter().any(outside) {
        return Err("an instruction outside the code".into());
    }
    Ok(Block { unit, queries })
}

#[cfg(test)]
mod tests {
    use super::*;
    use crate::draft::Draft;

    fn query() -> Query {
        Query { choice: Choice::RowsTypes, instruction: 9, a: vec![7, 8, 9], b: vec![] }
    }

    #[test]
    fn bytes_of_a_query() {
        let bytes = query_bytes(&[query()]);
        assert_eq!(bytes, [5, 0, 9, 0, 3, 7, 8, 9, 0, 0]);
        assert_eq!(parse_queries(&bytes), Some(vec![query()]));
        assert_eq!(parse_queries(&[]), Some(vec![]));
        for length in 1..bytes.len() {
            assert_eq!(parse_queries(&bytes[..length]), None);
        }
        for number in [0, 6, 255] {
            assert_eq!(parse_queries(&[number, 0, 0, 0, 0, 0, 0]), None);
        }
    }

    #[test]
    fn choices() {
        assert_eq!(Choice::ALL.map(Choice::number), [1, 2, 3, 4, 5]);
    }

    #[test]
    fn blocks() {
        let unit = Draft::rule_u().bytes();
        let file = pack_blocks(&[(unit.clone(), vec![query(), query()]), (unit.clone(), vec![])]);
        let blocks = unpack_blocks(&file).unwrap();
        assert_eq!(blocks.len(), 2);
        assert_eq!(blocks[0].unit.bytes(), unit);
        assert_eq!(blocks[0].queries, [query(), query()]);
        assert_eq!(blocks[1].queries, []);
        assert!(unpack_blocks(&file[..file.len() - 1]).is_err());
        assert!(unpack_blocks(&file[..file.len() - 4]).is_err());
        let outside = Query { instruction: 10, ..query() };
        assert!(unpack_blocks(&pack_blocks(&[(unit, vec![outside])])).is_err());
        assert!(unpack_blocks(&pack_blocks(&[(vec![], vec![])])).is_err());
    }
}
