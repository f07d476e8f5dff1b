// A value table that stands in for the Rust's solver, with what was handed on to it.
use crate::sat::{Lit, SolverManipulator};

pub struct Solver {
    pub table: Vec<u8>,
    pub handed: Vec<Lit>,
}

// The code of a literal that becomes true at the current level.
pub fn code(lit: Lit) -> u8 {
    3 + (lit.0 & 1) as u8
}

unsafe impl SolverManipulator for Solver {
    unsafe fn value(&self, lit: Lit) -> Option<bool> {
        let c = self.table[lit.0 as usize / 2];
        if c == 0 { None } else { Some((c % 2 == 1) == (lit.0 % 2 == 0)) }
    }
    unsafe fn add_watch(&mut self, _lit: Lit) {}
    unsafe fn enqueue(&mut self, lit: Lit) -> bool {
        if self.value(lit).is_none() {
            self.table[lit.0 as usize / 2] = code(lit);
            self.handed.push(lit);
        }
        true
    }
    unsafe fn decision_level_of_literal(&self, _lit: Lit) -> i32 {
        unreachable!()
    }
    unsafe fn is_current_level(&self, lit: Lit) -> bool {
        self.table[lit.0 as usize / 2] >= 3
    }
}
