// adapter.rs: examples/rust/propagator.rs on document 01's cases, each answer written there. A stand-in for a solver
// has the values and levels that a case says, and keeps what is watched and enqueued.
#[path = "../../examples/rust/propagator.rs"]
mod graph_division;
#[path = "../../examples/rust/sat.rs"]
mod sat;

use graph_division::{GraphDivision, GraphDivisionOptions};
use sat::{CustomPropagator, Lit, SolverManipulator};

// Of each variable its value and level; the current level is 1.
#[derive(Default)]
struct Solver {
    values: Vec<Option<(bool, i32)>>,
    watched: Vec<i32>,
    enqueued: Vec<i32>,
}

unsafe impl SolverManipulator for Solver {
    unsafe fn value(&self, lit: Lit) -> Option<bool> {
        self.values[lit.0 as usize / 2].map(|(truth, _)| truth == (lit.0 % 2 == 0))
    }
    unsafe fn add_watch(&mut self, lit: Lit) {
        self.watched.push(lit.0);
    }
    unsafe fn enqueue(&mut self, lit: Lit) -> bool {
        self.enqueued.push(lit.0);
        self.set(lit.0, 1);
        true
    }
    unsafe fn decision_level_of_literal(&self, lit: Lit) -> i32 {
        self.values[lit.0 as usize / 2].map_or(0, |(_, level)| level)
    }
    unsafe fn is_current_level(&self, lit: Lit) -> bool {
        self.decision_level_of_literal(lit) == 1
    }
}

impl Solver {
    fn set(&mut self, lit: i32, level: i32) {
        self.values[lit as usize / 2] = Some((lit % 2 == 0, level));
    }
}

struct Case {
    solver: Solver,
    propagator: GraphDivision,
}

// Pens (weight, domain, literals), gates (pen, pen, literal).
fn case(pens: &[(i32, &[i32], &[i32])], gates: &[(usize, usize, i32)]) -> Case {
    let domains: Vec<Vec<i32>> = pens.iter().map(|p| p.1.to_vec()).collect();
    let dom_lits: Vec<Vec<Lit>> = pens.iter().map(|p| p.2.iter().map(|&lit| Lit(lit)).collect()).collect();
    let weights: Vec<i32> = pens.iter().map(|p| p.0).collect();
    let edges: Vec<(usize, usize)> = gates.iter().map(|g| (g.0, g.1)).collect();
    let edge_lits: Vec<Lit> = gates.iter().map(|g| Lit(g.2)).collect();
    let opts = GraphDivisionOptions::default();
    let propagator = GraphDivision::new(&domains, &dom_lits, &weights, &edges, &edge_lits, &opts);
    Case { solver: Solver { values: vec![None; 5], ..Solver::default() }, propagator }
}

// Two pens of weight 1 with empty domains, and two gates between them, literals 0 and 2.
fn two_gates() -> Case {
    case(&[(1, &[], &[]), (1, &[], &[])], &[(0, 1, 0), (0, 1, 2)])
}

impl Case {
    fn initialize(&mut self) -> bool {
        self.propagator.initialize(&mut self.solver)
    }
    // Sets a literal at the current level and notifies it: the answer, and what was enqueued.
    fn notify(&mut self, lit: i32, pending: i32) -> (bool, Vec<i32>) {
        self.solver.set(lit, 1);
        self.notify_alone(lit, pending)
    }
    fn notify_alone(&mut self, lit: i32, pending: i32) -> (bool, Vec<i32>) {
        self.solver.enqueued.clear();
        let answer = self.propagator.propagate(&mut self.solver, Lit(lit), pending);
        (answer, self.solver.enqueued.clone())
    }
    fn reason(&mut self, lit: Option<i32>) -> Vec<i32> {
        self.propagator.calc_reason(&mut self.solver, lit.map(Lit), None).iter().map(|lit| lit.0).collect()
    }
    fn undo(&mut self, lit: i32) {
        self.propagator.undo(&mut self.solver, Lit(lit));
        self.solver.values[lit as usize / 2] = None;
    }
}

#[derive(Default)]
struct Tally {
    passed: u32,
    failed: u32,
}

impl Tally {
    fn test<T: PartialEq + std::fmt::Debug>(&mut self, what: &str, got: T, want: T) {
        if got == want {
            self.passed += 1;
        } else {
            self.failed += 1;
            println!("adapter.rs: {what}: FAILED: {got:?}, not {want:?}");
        }
    }
    // What a call panics with.
    fn refused(&mut self, what: &str, want: &str, call: impl FnOnce() + std::panic::UnwindSafe) {
        let panic = std::panic::catch_unwind(call).err();
        let said = panic.and_then(|p| p.downcast_ref::<String>().cloned()).unwrap_or_default();
        self.test(what, said.starts_with(want), true);
    }
}

fn cases(tally: &mut Tally) {
    let mut g = case(&[(3, &[3, 7], &[0]), (4, &[4, 7], &[2])], &[(0, 1, 4)]);
    tally.test("G: I", g.initialize(), true);
    tally.test("G: what is watched", g.solver.watched.clone(), vec![0, 1, 2, 3, 4, 5]);
    tally.test("G: N 0", g.notify(0, 0), (true, vec![]));
    tally.test("G: N 4", g.notify(4, 0), (false, vec![]));
    tally.test("G: R -", g.reason(None), vec![4, 0]);
    g.undo(4);
    g.undo(0);
    tally.test("G: N 5", g.notify(5, 0), (true, vec![0, 2]));
    tally.test("G: R 0", g.reason(Some(0)), vec![5]);
    let mut b = case(&[(3, &[2], &[])], &[]);
    tally.test("B: I", b.initialize(), false);
    tally.test("B: R -", b.reason(None), vec![]);
    let mut d = case(&[(1, &[], &[])], &[(0, 0, 0)]);
    tally.test("D2: I", d.initialize(), true);
    tally.test("D2: R 1", d.reason(Some(1)), vec![]);
    tally.test("D: N 0", d.notify(0, 0), (false, vec![]));
    tally.test("D: R -", d.reason(None), vec![0]);
    let mut e = two_gates();
    tally.test("E: N 1", e.notify(1, 0), (true, vec![3]));
    tally.test("E: R 3", e.reason(Some(3)), vec![1]);
    let mut e2 = two_gates();
    tally.test("E2: N 0", e2.notify(0, 0), (true, vec![2]));
    tally.test("E2: R 2", e2.reason(Some(2)), vec![0]);
}

// The table: codes by level, what was set before an initialise, pending numbers of either sign.
fn tables(tally: &mut Tally) {
    let mut f = two_gates();
    f.solver.set(2, 0);
    tally.test("F: N 1, variable 1 true earlier", f.notify(1, 0), (false, vec![]));
    tally.test("F: R -", f.reason(None), vec![1, 2]);
    tally.refused("14: both set earlier", "notifying is refused with 14: what follows is false", || {
        let mut f = two_gates();
        f.solver.set(2, 0);
        f.solver.set(1, 0);
        f.notify_alone(1, 0);
    });
    let mut set = two_gates();
    set.solver.set(1, 1);
    tally.test("E: 1 is set before I", set.initialize(), true);
    tally.test("what I hands on", set.solver.enqueued.clone(), vec![3]);
    let mut noted = two_gates();
    tally.test("N 1 with one more pending", noted.notify(1, 1), (true, vec![]));
    tally.test("N 2 with -1 pending", noted.notify(2, -1), (true, vec![]));
}

fn refusals(tally: &mut Tally) {
    tally.refused("3: sizes that do not rise", "building is refused with 3: a size", || {
        case(&[(1, &[3, 3], &[0])], &[]);
    });
    tally.refused("6: an end that is no pen", "building is refused with 6: an end", || {
        case(&[(1, &[], &[])], &[(0, usize::MAX, 0)]);
    });
    tally.refused("8: I, I", "initialising is refused with 8: ", || {
        let mut e = two_gates();
        e.initialize();
        e.initialize();
    });
    tally.refused("11: not the newest", "undoing is refused with 11: ", || {
        let mut e = two_gates();
        e.notify(0, 1);
        e.notify(2, 1);
        e.undo(0);
    });
    tally.refused("15: no reason", "fetching is refused with 15: ", || {
        two_gates().reason(Some(2));
    });
}

fn main() {
    std::panic::set_hook(Box::new(|_| {}));
    let mut tally = Tally::default();
    cases(&mut tally);
    tables(&mut tally);
    refusals(&mut tally);
    println!("{} passed, {} failed", tally.passed, tally.failed);
    std::process::exit(i32::from(tally.failed > 0));
}
