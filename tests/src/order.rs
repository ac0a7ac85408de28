//! The order that document 01 asks for, searched in a history of operations. It is promised stripe by stripe, so a history is first
//! split by stripes. Operations on one block take their place in their stripe's order.

use crate::settings::Shape;
use std::collections::{BTreeMap, HashSet};
use std::ops::Range;

/// How an operation ended.
#[derive(Clone, Debug, PartialEq, Eq)]
pub enum End {
    Wrote,
    Gave(Vec<u8>),
    Aborted,
    Cut,
}

/// An operation of a run, with the events at which it began and ended. One on a single block has its number, a write has its bytes.
#[derive(Clone, Debug, PartialEq)]
pub struct Operation {
    pub stripe: u64,
    pub block: Option<usize>,
    pub write: Option<Vec<u8>>,
    pub began: usize,
    pub ended: Option<(usize, End)>,
}

impl Operation {
    pub fn finished(&self) -> bool {
        matches!(self.ended, Some((_, End::Wrote | End::Gave(_))))
    }

    /// What a finished read gave.
    pub fn gave(&self) -> Option<&[u8]> {
        match &self.ended {
            Some((_, End::Gave(bytes))) => Some(bytes),
            _ => None,
        }
    }

    pub fn ended_before(&self, other: &Operation) -> bool {
        self.ended.as_ref().is_some_and(|(event, _)| *event < other.began)
    }

    /// Where its bytes stand in the plain stripe: all of it, or its block alone.
    fn part(&self, bytes: &[u8]) -> Range<usize> {
        let size = bytes.len();
        self.block.map_or(0..size, |j| j * size..(j + 1) * size)
    }

    /// Whether the plain stripe, as it stands, gives what a finished read gave.
    fn right_at(&self, content: &[u8]) -> bool {
        self.gave().is_none_or(|given| content[self.part(given)] == *given)
    }

    /// The plain stripe after it.
    fn after(&self, content: &[u8]) -> Vec<u8> {
        let mut content = content.to_vec();
        if let Some(bytes) = &self.write {
            content[self.part(bytes)].copy_from_slice(bytes);
        }
        content
    }

    /// Whether a read gave, of some block, the bytes that this write has for it.
    pub fn may_be_seen_by(&self, read: &Operation, shape: Shape) -> bool {
        let (Some(wrote), Some(given)) = (self.write.as_deref(), read.gave()) else { return false };
        let block = |o: &Operation, bytes: &[u8], j: usize| match o.block {
            None => Some(shape.block(bytes, j).to_vec()),
            Some(own) => (own == j).then(|| bytes.to_vec()),
        };
        (0..shape.m as usize).any(|j| block(self, wrote, j).is_some_and(|wrote| block(read, given, j) == Some(wrote)))
    }
}

/// The operations of each stripe, as they stand in the history.
pub fn by_stripe(operations: &[Operation]) -> Vec<Vec<Operation>> {
    let mut stripes = BTreeMap::<u64, Vec<Operation>>::new();
    for operation in operations {
        stripes.entry(operation.stripe).or_default().push(operation.clone());
    }
    stripes.into_values().collect()
}

/// Whether operation i may come next after those in the list, where the plain stripe stands at `content`.
fn may_follow(operations: &[Operation], list: impl Iterator<Item = usize>, content: &[u8], i: usize) -> bool {
    let next = &operations[i];
    let right = next.right_at(content);
    // A read that wasn't finished gives nothing and changes nothing: it is left out.
    let counts = next.write.is_some() || next.gave().is_some();
    right && counts && list.into_iter().all(|j| !next.ended_before(&operations[j]))
}

/// Tries every list of operations: one that has all finished ones, or none.
fn search(operations: &[Operation], list: &mut Vec<usize>, content: &[u8]) -> bool {
    if (0..operations.len()).all(|i| list.contains(&i) || !operations[i].finished()) {
        return true;
    }
    for i in 0..operations.len() {
        if !list.contains(&i) && may_follow(operations, list.iter().copied(), content, i) {
            list.push(i);
            if search(operations, list, &operations[i].after(content)) {
                return true;
            }
            list.pop();
        }
    }
    false
}

/// The order of one stripe's operations by brute force, from zeros.
pub fn brute_order(operations: &[Operation], shape: Shape) -> Option<Vec<usize>> {
    let mut list = Vec::new();
    search(operations, &mut list, &vec![0; shape.data_len()]).then_some(list)
}

/// The same for longer runs. What may follow depends only on the set of those before and on the stripe, so no such pair is tried twice.
/// An unfinished write of which no read gave a block may be taken out of an order: no read there sees any of it.
pub fn has_order(operations: &[Operation], shape: Shape) -> bool {
    let seen = |o: &Operation| operations.iter().any(|read| o.may_be_seen_by(read, shape));
    let operations: Vec<Operation> = operations.iter().filter(|o| o.finished() || seen(o)).cloned().collect();
    let count = operations.len();
    assert!(count < 64);
    let finished: u64 = (0..count).filter(|&i| operations[i].finished()).map(|i| 1 << i).sum();
    // Those that finished before each began: one of them that isn't in the set never will be.
    let needed =
        |i: usize| -> u64 { (0..count).filter(|&j| operations[j].ended_before(&operations[i])).map(|j| 1 << j).sum::<u64>() & finished };
    let needed: Vec<u64> = (0..count).map(needed).collect();
    let mut tried = HashSet::new();
    let mut open = vec![(0_u64, vec![0; shape.data_len()])];
    while let Some((set, content)) = open.pop() {
        if set & finished == finished {
            return true;
        }
        for i in (0..count).filter(|i| set >> i & 1 == 0 && needed[*i] & !set == 0) {
            let list = (0..count).filter(|j| set >> j & 1 == 1);
            if may_follow(&operations, list, &content, i) {
                let after = (set | 1 << i, operations[i].after(&content));
                if tried.insert(after.clone()) {
                    open.push(after);
                }
            }
        }
    }
    false
}

/// The demand itself, of a given list.
pub fn is_order(operations: &[Operation], list: &[usize], shape: Shape) -> bool {
    let mut content = vec![0; shape.data_len()];
    let mut right = (0..operations.len()).all(|i| list.contains(&i) || !operations[i].finished());
    for (place, &i) in list.iter().enumerate() {
        right &= list[..place].iter().all(|&j| j != i && !operations[i].ended_before(&operations[j]));
        right &= operations[i].right_at(&content);
        content = operations[i].after(&content);
    }
    right
}
