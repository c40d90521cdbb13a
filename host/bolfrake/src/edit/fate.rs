//! What becomes of the breaks of a line: each is gone, stays, or is new.

use std::cmp::Ordering;

use mztab::Break;

#[derive(Clone, Copy, Debug, PartialEq, Eq)]
pub enum Fate {
    Gone,
    Stays,
    New,
}

impl Fate {
    /// The word for programs.
    pub fn word(self) -> &'static str {
        match self {
            Fate::Gone => "gone",
            Fate::Stays => "stays",
            Fate::New => "new",
        }
    }

    /// The same for people, with a mark before it, each as wide.
    pub fn marked(self) -> &'static str {
        match self {
            Fate::Gone => "- gone ",
            Fate::Stays => "  stays",
            Fate::New => "+ new  ",
        }
    }
}

/// The breaks of one line before and after, each once, by cell and rule. One that both lists have stays.
pub fn fates(
    before: impl Iterator<Item = Break>,
    after: impl Iterator<Item = Break>,
) -> Vec<(Fate, Break)> {
    let (mut before, mut after) = (before.peekable(), after.peekable());
    let mut all = Vec::new();
    loop {
        let order = match (before.peek(), after.peek()) {
            (None, None) => return all,
            (Some(_), None) => Ordering::Less,
            (None, Some(_)) => Ordering::Greater,
            (Some(old), Some(new)) => (old.cell, old.rule).cmp(&(new.cell, new.rule)),
        };
        let (fate, at) = match order {
            Ordering::Less => (Fate::Gone, before.next()),
            Ordering::Equal => {
                before.next();
                (Fate::Stays, after.next())
            }
            Ordering::Greater => (Fate::New, after.next()),
        };
        all.extend(at.map(|at| (fate, at)));
    }
}

#[cfg(test)]
mod tests {
    use super::*;

    fn list(places: &[(u32, u32)]) -> Vec<Break> {
        let of = |(cell, rule): &(u32, u32)| Break {
            rule: *rule,
            line: 7,
            cell: *cell,
            first: 0,
        };
        places.iter().map(of).collect()
    }

    fn found(before: &[(u32, u32)], after: &[(u32, u32)]) -> Vec<(&'static str, u32, u32)> {
        let all = fates(list(before).into_iter(), list(after).into_iter());
        all.into_iter()
            .map(|(fate, at)| (fate.word(), at.cell, at.rule))
            .collect()
    }

    #[test]
    fn by_cell_and_rule() {
        assert_eq!(found(&[], &[]), []);
        assert_eq!(found(&[(2, 19)], &[]), [("gone", 2, 19)]);
        assert_eq!(found(&[], &[(2, 19)]), [("new", 2, 19)]);
        assert_eq!(found(&[(2, 19)], &[(2, 19)]), [("stays", 2, 19)]);
        // The same rule at another cell, and another rule at the same cell, are other breaks.
        assert_eq!(found(&[(3, 1)], &[(5, 1)]), [("gone", 3, 1), ("new", 5, 1)]);
        assert_eq!(
            found(&[(3, 20)], &[(3, 19)]),
            [("new", 3, 19), ("gone", 3, 20)]
        );
        let before = [(2, 19), (3, 1), (3, 20), (9, 20)];
        let after = [(2, 19), (3, 20), (4, 1), (5, 20)];
        let expected = [
            ("stays", 2, 19),
            ("gone", 3, 1),
            ("stays", 3, 20),
            ("new", 4, 1),
            ("new", 5, 20),
            ("gone", 9, 20),
        ];
        assert_eq!(found(&before, &after), expected);
    }

    #[test]
    fn marks_are_as_wide() {
        for fate in [Fate::Gone, Fate::Stays, Fate::New] {
            assert_eq!(fate.marked().len(), 7);
            assert!(fate.marked().contains(fate.word()));
        }
    }
}
