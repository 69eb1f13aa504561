//! Ordered lists of steps: "The first step that fails gives the refusal."
//!
//! Every plain function hands its list to a function named `.._by`, which takes any order. Those are
//! inlined, and so is what they call to judge: where the list is known, the steps are a chain of
//! tests without a call.

use std::fmt;

/// One step of a list. Its test is made on its own, whatever the steps before it say.
#[derive(Debug, Clone, Copy)]
pub(crate) struct Step<T, A> {
    /// The paper's name, or the number that the step refuses with.
    pub name: &'static str,
    /// What is answered where this step is the first that fails.
    pub answer: A,
    /// What the step looks at.
    pub test: T,
}

/// What a list of steps judges.
pub(crate) trait Judged {
    /// The tests of its steps.
    type Test;
    /// What its steps answer.
    type Answer;
    /// Whether the step with this test fails.
    fn fails(&self, test: &Self::Test) -> bool;
}

/// The first step of `order` that fails.
#[inline(always)]
pub(crate) fn first_failure<'o, J: Judged + ?Sized>(
    order: &'o [Step<J::Test, J::Answer>],
    judged: &J,
) -> Option<&'o Step<J::Test, J::Answer>> {
    order.iter().find(|step| judged.fails(&step.test))
}

/// The names of a list's steps.
pub(crate) const fn names<T, A, const N: usize>(order: &[Step<T, A>; N]) -> [&'static str; N] {
    let mut names = [""; N];
    let mut at = 0;
    while at < N {
        names[at] = order[at].name;
        at += 1;
    }
    names
}

/// Two steps of a list that follow each other.
#[derive(Debug, Clone, Copy, PartialEq, Eq)]
pub struct Neighbours {
    /// The place of the first one in its list.
    pub at: usize,
    /// Their names.
    pub names: [&'static str; 2],
    /// Whether they answer the same, so that exchanging them changes no answer: so do the tests of a
    /// record's head, which all end a listing with `stop`.
    pub alike: bool,
}

impl fmt::Display for Neighbours {
    fn fmt(&self, f: &mut fmt::Formatter<'_>) -> fmt::Result {
        write!(f, "{}+{}", self.names[0], self.names[1])
    }
}

/// The neighbours of a list.
pub(crate) fn neighbours<T, A: PartialEq>(order: &[Step<T, A>]) -> Vec<Neighbours> {
    let pairs = order.windows(2).enumerate();
    pairs.map(|(at, pair)| neighbours_at(at, &pair[0], &pair[1])).collect()
}

fn neighbours_at<T, A: PartialEq>(at: usize, one: &Step<T, A>, next: &Step<T, A>) -> Neighbours {
    Neighbours { at, names: [one.name, next.name], alike: one.answer == next.answer }
}

/// The first step of `order` that fails and the next one, where that fails too.
pub(crate) fn both_fail<J>(order: &[Step<J::Test, J::Answer>], judged: &J) -> Option<Neighbours>
where
    J: Judged<Answer: PartialEq> + ?Sized,
{
    let at = order.iter().position(|step| judged.fails(&step.test))?;
    let next = order.get(at + 1).filter(|step| judged.fails(&step.test))?;
    Some(neighbours_at(at, &order[at], next))
}

/// The list with the step at `at` and the next one exchanged.
pub(crate) fn exchanged<T, A, const N: usize>(mut order: [Step<T, A>; N], at: usize) -> [Step<T, A>; N] {
    order.swap(at, at + 1);
    order
}
