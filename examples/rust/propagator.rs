//! The yard divider as a `CustomPropagator`: `GraphDivision` with the names and arguments of the Rust original, over
//! the C host (include/zuntjev.h). A solver that has the original takes this file in its place by one line, where it
//! names the module, and links libzuntjev.a. A refusal panics with its number and meaning, where the original has
//! assertions or goes wrong.
#![allow(dead_code)] // a solver may ask for more of the names than another
use crate::sat::{CustomPropagator, Lit, SolverManipulator};

extern "C" {
    fn zuntjev_build(
        vertices: *const u8, vertices_len: usize, n: usize, edges: *const u8, edges_len: usize, m: usize,
        same_size: i32, extra_walls: i32, state: *mut u8, state_len: usize,
    ) -> i32;
    fn zuntjev_initialize(
        state: *mut u8, state_len: usize, table: *mut u8, table_len: usize, list: *mut u8, list_len: usize,
        log: *mut u8, log_len: usize, cursor: *mut u8, cursor_len: usize,
    ) -> i32;
    fn zuntjev_propagate(
        state: *mut u8, state_len: usize, table: *mut u8, table_len: usize, list: *mut u8, list_len: usize,
        log: *mut u8, log_len: usize, cursor: *mut u8, cursor_len: usize, lit: i32, num_pending_propagations: i32,
    ) -> i32;
    fn zuntjev_undo(
        state: *mut u8, state_len: usize, log: *const u8, log_len: usize, cursor: *mut u8, cursor_len: usize, lit: i32,
    ) -> i32;
    fn zuntjev_calc_reason(
        state: *const u8, state_len: usize, log: *const u8, log_len: usize, cursor: *const u8, cursor_len: usize,
        lit: i32, buffer: *mut u8, buffer_len: usize,
    ) -> i32;
    fn zuntjev_calc_last(
        state: *const u8, state_len: usize, log: *const u8, log_len: usize, cursor: *const u8, cursor_len: usize,
        buffer: *mut u8, buffer_len: usize,
    ) -> i32;
}

const STATE_LEN: usize = 133440;
const CURSOR_LEN: usize = 8;
const MAX_SIZES: usize = 32;
const CONFLICT: i32 = -100;
const NOTED: i32 = -101;

fn meaning(refusal: i32) -> &'static str {
    match refusal {
        1 => "too many pens, gates or sizes",
        2 => "heads outside their range",
        3 => "a size outside its range, or sizes that do not rise",
        4 => "wrong number of size literals",
        5 => "a literal outside its range",
        6 => "an end of a gate is no pen",
        7 => "a buffer is too short, or what is in it cannot be",
        8 => "initialised again after a consistent one",
        9 => "a literal that the plan does not have",
        10 => "the literal to be notified stands already, or its negation does",
        11 => "the literal to be undone is not the newest",
        13 => "same-size option: something would follow from a fixed size of 0",
        14 => {
            "what follows is false in the table, and neither it nor what it follows from was set at the current \
             level"
        }
        15 => "no reason is recorded for the literal",
        16 => "the open gates that the reason goes by are not open any more",
        _ => "an unknown number",
    }
}

/// The shape of sat.rs has no place for a refusal, which is a mistake of the caller's: it ends here.
fn accepted(call: &str, answer: i32) {
    if answer < 0 {
        panic!("{call} is refused with {}: {}", -answer, meaning(-answer));
    }
}

#[derive(Clone, Copy, Default)]
pub struct GraphDivisionOptions {
    pub disallow_adjacent_same_size_regions: bool,
    pub allow_extra_walls: bool,
}

impl GraphDivisionOptions {
    /// Whether an option is on; the original's callers ask it.
    pub fn require_extra_constraints(&self) -> bool {
        self.allow_extra_walls || self.disallow_adjacent_same_size_regions
    }
}

/// The buffers that the host is lent, and the plan's literals, rising.
pub struct GraphDivision {
    state: Vec<u8>,
    table: Vec<u8>,
    list: Vec<u8>,
    log: Vec<u8>,
    cursor: Vec<u8>,
    buffer: Vec<u8>,
    unique_lits: Vec<Lit>,
}

/// A count or a vertex as the builder reads it; one that does not fit is as good as any that is too large.
fn number(n: usize) -> i32 {
    i32::try_from(n).unwrap_or(i32::MAX)
}

/// A vertex's 67 numbers. Of too many sizes or literals the true count is put, which is refused.
fn vertex_numbers(weight: i32, domain: &[i32], dom_lits: &[Lit]) -> Vec<i32> {
    let mut numbers = vec![weight, number(domain.len()), number(dom_lits.len())];
    numbers.extend(domain.iter().take(MAX_SIZES));
    numbers.resize(3 + MAX_SIZES, 0);
    numbers.extend(dom_lits.iter().take(MAX_SIZES).map(|lit| lit.0));
    numbers.resize(3 + 2 * MAX_SIZES, 0);
    numbers
}

fn bytes(numbers: &[i32]) -> Vec<u8> {
    numbers.iter().flat_map(|x| x.to_le_bytes()).collect()
}

impl GraphDivision {
    /// As the original's. A plan that cannot be built panics.
    pub fn new(
        domains: &[Vec<i32>], dom_lits: &[Vec<Lit>], vertex_weights: &[i32], edges: &[(usize, usize)],
        edge_lits: &[Lit], opts: &GraphDivisionOptions,
    ) -> GraphDivision {
        assert!(domains.len() == dom_lits.len() && domains.len() == vertex_weights.len());
        assert_eq!(edges.len(), edge_lits.len());
        let (n, m) = (domains.len(), edges.len());
        let vertices: Vec<i32> =
            (0..n).flat_map(|v| vertex_numbers(vertex_weights[v], &domains[v], &dom_lits[v])).collect();
        let ends: Vec<i32> =
            edges.iter().zip(edge_lits).flat_map(|(e, lit)| [number(e.0), number(e.1), lit.0]).collect();
        let (vs, es) = (bytes(&vertices), bytes(&ends));
        let (same_size, extra_walls) = (opts.disallow_adjacent_same_size_regions, opts.allow_extra_walls);
        let mut state = vec![0; STATE_LEN];
        let answer = unsafe {
            zuntjev_build(
                vs.as_ptr(), vs.len(), n, es.as_ptr(), es.len(), m, same_size.into(), extra_walls.into(),
                state.as_mut_ptr(), state.len(),
            )
        };
        accepted("building", answer);
        GraphDivision::lend(state, domains, dom_lits, edge_lits)
    }

    /// Buffers that just suffice for the plan.
    fn lend(state: Vec<u8>, domains: &[Vec<i32>], dom_lits: &[Vec<Lit>], edge_lits: &[Lit]) -> GraphDivision {
        let bounded = domains.iter().zip(dom_lits).filter(|(domain, _)| !domain.is_empty());
        let size_lits: Vec<Lit> = bounded.flat_map(|(_, lits)| lits.clone()).collect();
        let mut unique_lits: Vec<Lit> =
            size_lits.iter().chain(edge_lits).flat_map(|&lit| [lit, !lit]).collect();
        unique_lits.sort();
        unique_lits.dedup();
        GraphDivision {
            state,
            table: vec![0; unique_lits.last().map_or(0, |lit| lit.0 as usize / 2 + 1)],
            list: vec![0; 2 * unique_lits.len()],
            log: vec![0; 16 * (edge_lits.len() + size_lits.len())],
            cursor: vec![0; CURSOR_LEN],
            buffer: vec![0; 2 * (edge_lits.len() + 2 * domains.len() + 4)],
            unique_lits,
        }
    }

    /// The table's codes: 0 unset, 1 true and 2 false at an earlier level, 3 true and 4 false at this one.
    fn fill_table<T: SolverManipulator>(&mut self, solver: &T) {
        for &lit in self.unique_lits.iter().filter(|lit| lit.0 % 2 == 0) {
            self.table[lit.0 as usize / 2] = match unsafe { solver.value(lit) } {
                None => 0,
                Some(truth) => (if unsafe { solver.is_current_level(lit) } { 3 } else { 1 }) + u8::from(!truth),
            };
        }
    }

    /// What a call that analyzes answered: what follows is enqueued, a conflict is `false`.
    fn take<T: SolverManipulator>(&self, solver: &mut T, call: &str, answer: i32) -> bool {
        match answer {
            CONFLICT => return false,
            NOTED => return true,
            _ => accepted(call, answer),
        }
        for lit in literals(&self.list, answer) {
            // the table said that it is unset, so the solver takes it
            assert!(unsafe { solver.enqueue(lit) });
        }
        true
    }
}

/// The first n literals of a list's or a reason buffer's bytes.
fn literals(bytes: &[u8], n: i32) -> Vec<Lit> {
    bytes.chunks(2).take(n as usize).map(|b| Lit(i32::from(b[0]) + 256 * i32::from(b[1]))).collect()
}

unsafe impl<T: SolverManipulator> CustomPropagator<T> for GraphDivision {
    fn initialize(&mut self, solver: &mut T) -> bool {
        for &lit in &self.unique_lits {
            unsafe { solver.add_watch(lit) };
        }
        self.fill_table(solver);
        let GraphDivision { state: s, table: t, list: l, log: g, cursor: c, .. } = self;
        let (sp, tp, lp, gp, cp) = (s.as_mut_ptr(), t.as_mut_ptr(), l.as_mut_ptr(), g.as_mut_ptr(), c.as_mut_ptr());
        let answer = unsafe { zuntjev_initialize(sp, s.len(), tp, t.len(), lp, l.len(), gp, g.len(), cp, c.len()) };
        self.take(solver, "initialising", answer)
    }

    fn propagate(&mut self, solver: &mut T, p: Lit, num_pending_propagations: i32) -> bool {
        self.fill_table(solver);
        let GraphDivision { state: s, table: t, list: l, log: g, cursor: c, .. } = self;
        let (sp, tp, lp, gp, cp) = (s.as_mut_ptr(), t.as_mut_ptr(), l.as_mut_ptr(), g.as_mut_ptr(), c.as_mut_ptr());
        let (lit, pending) = (p.0, num_pending_propagations);
        let answer =
            unsafe { zuntjev_propagate(sp, s.len(), tp, t.len(), lp, l.len(), gp, g.len(), cp, c.len(), lit, pending) };
        self.take(solver, "notifying", answer)
    }

    /// The reason of `p`; without one the list of the conflict just found. As in the original, `extra` is not used.
    fn calc_reason(&mut self, _solver: &mut T, p: Option<Lit>, extra: Option<Lit>) -> Vec<Lit> {
        assert!(extra.is_none());
        let GraphDivision { state: s, log: g, cursor: c, buffer: b, .. } = self;
        let (sp, gp, cp, bp) = (s.as_ptr(), g.as_ptr(), c.as_ptr(), b.as_mut_ptr());
        let answer = unsafe {
            match p {
                Some(lit) => zuntjev_calc_reason(sp, s.len(), gp, g.len(), cp, c.len(), lit.0, bp, b.len()),
                None => zuntjev_calc_last(sp, s.len(), gp, g.len(), cp, c.len(), bp, b.len()),
            }
        };
        accepted("fetching", answer);
        literals(&self.buffer, answer)
    }

    fn undo(&mut self, _solver: &mut T, p: Lit) {
        let GraphDivision { state: s, log: g, cursor: c, .. } = self;
        let answer =
            unsafe { zuntjev_undo(s.as_mut_ptr(), s.len(), g.as_ptr(), g.len(), c.as_mut_ptr(), c.len(), p.0) };
        accepted("undoing", answer);
    }
}
