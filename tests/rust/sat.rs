// What graph_division.rs needs of sat.rs, for the drivers that compile it: those of bench/ and of tests/.
#[derive(Clone, Copy, Debug, PartialEq, Eq, PartialOrd, Ord, Hash)]
pub struct Lit(pub i32);

impl std::ops::Not for Lit {
    type Output = Lit;
    fn not(self) -> Lit {
        Lit(self.0 ^ 1)
    }
}

pub unsafe trait SolverManipulator {
    unsafe fn value(&self, lit: Lit) -> Option<bool>;
    unsafe fn add_watch(&mut self, lit: Lit);
    unsafe fn enqueue(&mut self, lit: Lit) -> bool;
    unsafe fn decision_level_of_literal(&self, lit: Lit) -> i32;
    unsafe fn is_current_level(&self, lit: Lit) -> bool;
}

pub unsafe trait CustomPropagator<T: SolverManipulator> {
    fn initialize(&mut self, solver: &mut T) -> bool;
    fn propagate(&mut self, solver: &mut T, p: Lit, num_pending_propagations: i32) -> bool;
    fn calc_reason(&mut self, solver: &mut T, p: Option<Lit>, extra: Option<Lit>) -> Vec<Lit>;
    fn undo(&mut self, solver: &mut T, p: Lit);
}
