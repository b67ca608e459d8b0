//! Free runs between taken ranges, on the disc and in variable memory.

use std::ops::Range;

/// Whether two ranges of at least one byte share none.
pub fn disjoint(a: &Range<usize>, b: &Range<usize>) -> bool {
    a.end <= b.start || b.end <= a.start
}

/// The free runs between taken ranges that share no byte, from low to high: what lies before, between and past them.
pub fn free_runs(
    bounds: Range<usize>,
    taken: impl Iterator<Item = Range<usize>>,
) -> impl Iterator<Item = Range<usize>> {
    let mut taken: Vec<_> = taken.collect();
    taken.sort_by_key(|range| range.start);
    let starts = std::iter::once(bounds.start).chain(taken.clone().into_iter().map(|range| range.end));
    let ends = taken.into_iter().map(|range| range.start).chain(std::iter::once(bounds.end));
    starts.zip(ends).map(|(start, end)| start..end)
}

/// Document 02, Q-10: "the start of the shortest free run that fits, the lowest of equals".
pub fn place(bounds: Range<usize>, taken: impl Iterator<Item = Range<usize>>, length: usize) -> Option<usize> {
    // the first of the least
    free_runs(bounds, taken).filter(|run| run.len() >= length).min_by_key(Range::len).map(|run| run.start)
}

/// "the longest free run"
pub fn longest_run(bounds: Range<usize>, taken: impl Iterator<Item = Range<usize>>) -> usize {
    free_runs(bounds, taken).map(|run| run.len()).max().unwrap_or(0)
}
