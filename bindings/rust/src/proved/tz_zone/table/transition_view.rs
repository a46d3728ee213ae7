// Generated from crates/tz_zone/src/table/transition_view.rt by bindings/erase: its contracts are cut. Change that file instead.
//! A zone's transitions as a function may read them: one at a time. Each read is a look, which is
//! counted.

use super::Transition;

/// A view of transitions, which counts the looks at them.
///
/// A function that has its view by `&mut` can take looks and nothing else: it has no slice, and can
/// not set the count back. The count stays at `u64::MAX` once it is there.
#[derive(Clone, Copy)]
pub struct TransitionView<'a> {
    transitions: &'a [Transition],
    looks: u64,
    may_guess: bool,
}

impl<'a> TransitionView<'a> {
    /// The view of these transitions for a caller that wants no count: a position may be guessed,
    /// and several transitions read as an array.
    #[inline]
    #[must_use]
    pub const fn new(transitions: &'a [Transition]) -> Self {
        TransitionView {
            transitions,
            looks: 0,
            may_guess: true,
        }
    }

    /// The view of these transitions for a caller that wants the count: each read is a look.
    #[must_use]
    pub const fn counted(transitions: &'a [Transition]) -> Self {
        TransitionView {
            transitions,
            looks: 0,
            may_guess: false,
        }
    }

    /// The number of looks so far.
    #[must_use]
    pub const fn looks(&self) -> u64 {
        self.looks
    }

    /// The number of transitions.
    #[inline]
    #[must_use]
    pub const fn len(&self) -> usize {
        self.transitions.len()
    }

    /// A look: the transition at an index.
    #[inline]
    pub const fn look(&mut self, index: usize) -> Transition {
        self.looks = self.looks.saturating_add(1);
        self.transitions[index]
    }

    /// A view of the same transitions, at which no look has been taken.
    #[inline]
    #[must_use]
    pub const fn fresh(&self) -> Self {
        TransitionView {
            transitions: self.transitions,
            looks: 0,
            may_guess: self.may_guess,
        }
    }

    /// Counts the looks at a view that [`TransitionView::fresh`] returned.
    pub const fn add_looks(&mut self, looks: u64) {
        self.looks = self.looks.saturating_add(looks);
    }

    /// Whether a position may be guessed.
    #[inline]
    #[must_use]
    pub const fn may_guess(&self) -> bool {
        self.may_guess
    }

    /// `N` transitions from an index on, if there are so many, for a caller that wants no count.
    #[inline]
    #[must_use]
    pub const fn chunk_at<const N: usize>(&self, index: usize) -> Option<&'a [Transition; N]> {
        let (_, rest) = self.transitions.split_at(index);
        rest.first_chunk()
    }
}
