//! Ranks, by the words of demand 3 alone: they are asked neither of the Rust nor of the port.
use crate::request::Shape;

/// The rank of each position, if it has one: 1 if its parent is 0, else one more than the rank of
/// its parent. Round by round those get one whose parents have one, until no more do.
pub fn ranks(shapes: &[Shape]) -> Vec<Option<usize>> {
    let mut ranks = vec![None; shapes.len()];
    loop {
        let of_parent = |parent: usize| ranks.get(parent - 1).copied().flatten();
        let rank = |shape: &Shape| match shape.parent {
            0 => Some(1),
            parent => of_parent(parent).map(|rank: usize| rank + 1),
        };
        let next: Vec<_> = shapes.iter().map(rank).collect();
        if next == ranks {
            return ranks;
        }
        ranks = next;
    }
}

/// The largest rank, 0 if there are no positions; nothing if not all have ranks.
pub fn deepest(shapes: &[Shape]) -> Option<usize> {
    let ranks: Option<Vec<usize>> = ranks(shapes).into_iter().collect();
    Some(ranks?.into_iter().max().unwrap_or(0))
}

/// Shapes that hang on these parents.
#[cfg(test)]
pub fn hung(parents: &[usize]) -> Vec<Shape> {
    let shape = |&parent| Shape {
        parent,
        ..Shape::default()
    };
    parents.iter().map(shape).collect()
}

#[cfg(test)]
mod tests {
    use super::*;

    #[test]
    fn small_lists() {
        let shapes = hung(&[3, 0, 2, 2, 1]);
        assert_eq!(ranks(&shapes), [3, 1, 2, 2, 4].map(Some));
        assert_eq!(deepest(&shapes), Some(4));
        assert_eq!(deepest(&hung(&[0, 1, 0])), Some(2));
        assert_eq!(deepest(&[]), Some(0));
    }

    #[test]
    fn long_chains() {
        let before: Vec<usize> = (0..63).collect();
        let after: Vec<usize> = (2..=63).chain([0]).collect();
        for parents in [before, after] {
            assert_eq!(deepest(&hung(&parents)), Some(63));
        }
        assert_eq!(deepest(&hung(&[0; 63])), Some(1));
    }

    /// Positions on a circle or on a parent that is not declared have none, nor have those on them.
    #[test]
    fn no_ranks() {
        for (parents, expected) in [
            ([1, 0, 1], [None, Some(1), None]),
            ([2, 1, 0], [None, None, Some(1)]),
            ([0, 4, 2], [Some(1), None, None]),
            ([usize::MAX, 3, 0], [None, Some(2), Some(1)]),
        ] {
            assert_eq!(ranks(&hung(&parents)), expected);
            assert_eq!(deepest(&hung(&parents)), None);
        }
    }
}
