//! Literals, and the shape that a solver and a propagator have for each other in the Rust library's sat.rs: these names
//! and arguments, so that propagator.rs fits there too. In that library `use crate::sat` finds its own file.
#![allow(dead_code)] // not every solver and propagator ask for everything

/// Variable v has literal 2v, and its negation 2v + 1.
#[derive(Clone, Copy, Debug, PartialEq, Eq, PartialOrd, Ord, Hash)]
pub struct Lit(pub i32);

impl std::ops::Not for Lit {
    type Output = Lit;
    fn not(self) -> Lit {
        Lit(self.0 ^ 1)
    }
}

/// What a propagator asks of the solver. The functions are marked unsafe there, for literals that the solver does not
/// have.
#[allow(clippy::missing_safety_doc)]
pub unsafe trait SolverManipulator {
    unsafe fn value(&self, lit: Lit) -> Option<bool>;
    unsafe fn add_watch(&mut self, lit: Lit);
    unsafe fn enqueue(&mut self, lit: Lit) -> bool;
    unsafe fn decision_level_of_literal(&self, lit: Lit) -> i32;
    unsafe fn is_current_level(&self, lit: Lit) -> bool;
}

/// What the solver asks of a propagator; `false` is a conflict.
#[allow(clippy::missing_safety_doc)]
pub unsafe trait CustomPropagator<T: SolverManipulator> {
    fn initialize(&mut self, solver: &mut T) -> bool;
    fn propagate(&mut self, solver: &mut T, p: Lit, num_pending_propagations: i32) -> bool;
    fn calc_reason(&mut self, solver: &mut T, p: Option<Lit>, extra: Option<Lit>) -> Vec<Lit>;
    fn undo(&mut self, solver: &mut T, p: Lit);
}
