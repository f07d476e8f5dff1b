// The calls of the C host against the Rust's GraphDivision: the same calls on the same plans, in one run. The lists
// of calls are made once, on the Rust; both sides then replay them in turns of 200 calls, and the numbers that they
// answer are compared call by call, the tables at the end. A run between two vertices and a page, which the Rust does
// not have, are timed alone. Times are the thread's own, the median of ROUNDS rounds.
//   bench ROUNDS FIGURES   prints the table; the times against standing literals go to the file FIGURES
// The Rust is the copy that tests/rust/compile makes: one search takes the match that document 01 fixes.
#![allow(dead_code)]
use std::fmt::Write;
use std::hint::black_box;

#[path = "../tests/rust/sat.rs"]
mod sat;

#[path = "../tests/rust/solver.rs"]
mod solver;

#[path = "../tests/rust/host.rs"]
mod host;

mod graph_division {
    include!(env!("GRAPH_DIVISION_COPY"));
    include!("../tests/rust/first_match.rs");

    impl GraphDivision {
        pub fn has_reason(&self, lit: Lit) -> bool {
            let i = self.unique_lits.binary_search(&lit).unwrap();
            !matches!(self.propagation_reasons[i], Reason::NotPropagated)
        }
    }
}

use graph_division::{GraphDivision, GraphDivisionOptions};
use host::{Given, Host, CONFLICT, LINE_LEN, NOTED, STATE_LEN};
use sat::{CustomPropagator, Lit};
use solver::Solver;

struct Rng(u64);

impl Rng {
    fn below(&mut self, n: usize) -> usize {
        self.0 = self.0.wrapping_mul(6364136223846793005).wrapping_add(1442695040888963407);
        ((self.0 >> 33) as usize) % n
    }
}

// n vertices of weight 1 with the sizes 1 to k, m edges, each literal with its own variable, and one division: the
// literals that hold in it, those of sizes first.
struct Plan {
    n: usize,
    m: usize,
    k: usize,
    edges: Vec<(usize, usize)>,
    truth: Vec<i32>,
}

// What the Rust's `new` takes.
struct Parts {
    domains: Vec<Vec<i32>>,
    dom_lits: Vec<Vec<Lit>>,
    weights: Vec<i32>,
    edges: Vec<(usize, usize)>,
    edge_lits: Vec<Lit>,
}

impl Parts {
    fn build(&self) -> GraphDivision {
        let opts = GraphDivisionOptions::default();
        GraphDivision::new(&self.domains, &self.dom_lits, &self.weights, &self.edges, &self.edge_lits, &opts)
    }
}

impl Plan {
    fn new(r: &mut Rng, n: usize, m: usize, k: usize) -> Plan {
        let mut up: Vec<usize> = (0..n).collect();
        let mut edges = vec![];
        for g in 0..m {
            let (u, v) = if g + 1 < n { (g, g + 1) } else { (r.below(n), r.below(n)) };
            edges.push((u, v));
            if r.below(2) == 0 {
                let (a, b) = (up[u], up[v]);
                if up.iter().filter(|&&x| x == a || x == b).count() <= k {
                    up.iter_mut().filter(|x| **x == a).for_each(|x| *x = b);
                }
            }
        }
        let mut truth = vec![];
        for v in 0..n {
            let size = up.iter().filter(|&&x| x == up[v]).count();
            truth.extend((0..k - 1).map(|j| 2 * (v * (k - 1) + j) as i32 + (size < j + 2) as i32));
        }
        for (g, &(u, v)) in edges.iter().enumerate() {
            truth.push(2 * (n * (k - 1) + g) as i32 + (up[u] == up[v]) as i32);
        }
        Plan { n, m, k, edges, truth }
    }

    fn variables(&self) -> usize {
        self.truth.len()
    }

    // How many variables are of sizes: those of edges follow.
    fn sized(&self) -> usize {
        self.n * (self.k - 1)
    }

    fn size_lits(&self, v: usize) -> impl Iterator<Item = i32> {
        let each = self.k - 1;
        (0..each).map(move |j| 2 * (v * each + j) as i32)
    }

    fn parts(&self) -> Parts {
        Parts {
            domains: vec![(1..=self.k as i32).collect(); self.n],
            dom_lits: (0..self.n).map(|v| self.size_lits(v).map(Lit).collect()).collect(),
            weights: vec![1; self.n],
            edges: self.edges.clone(),
            edge_lits: (0..self.m).map(|g| Lit(2 * (self.sized() + g) as i32)).collect(),
        }
    }

    fn given(&self) -> Given {
        let sizes: Vec<i32> = (1..=self.k as i32).collect();
        let edge = |(g, e): (usize, &(usize, usize))| [e.0 as i32, e.1 as i32, 2 * (self.sized() + g) as i32];
        Given {
            vertices: (0..self.n).map(|v| (1, sizes.clone(), self.size_lits(v).collect())).collect(),
            edges: self.edges.iter().enumerate().map(edge).collect(),
            ..Given::default()
        }
    }

    fn rust(&self) -> Rust {
        Rust { d: self.parts().build(), solver: Solver { table: vec![0; self.variables()], handed: vec![] } }
    }

    fn host(&self) -> Host {
        self.given().build(self.variables(), 2 * self.variables())
    }
}

// Answers as the host gives them.
trait Side {
    fn initialize(&mut self) -> i32;
    fn propagate(&mut self, lit: i32, pending: i32) -> i32;
    fn undo(&mut self, lit: i32) -> i32;
    fn reason(&mut self, lit: i32) -> i32;
    fn table(&mut self) -> &mut [u8];
}

struct Rust {
    d: GraphDivision,
    solver: Solver,
}

impl Side for Rust {
    fn initialize(&mut self) -> i32 {
        self.solver.handed.clear();
        if self.d.initialize(&mut self.solver) { self.solver.handed.len() as i32 } else { CONFLICT }
    }
    fn propagate(&mut self, lit: i32, pending: i32) -> i32 {
        self.solver.handed.clear();
        match (self.d.propagate(&mut self.solver, Lit(lit), pending), pending) {
            (true, 0) => self.solver.handed.len() as i32,
            (true, _) => NOTED,
            _ => CONFLICT,
        }
    }
    fn undo(&mut self, lit: i32) -> i32 {
        self.d.undo(&mut self.solver, Lit(lit));
        0
    }
    fn reason(&mut self, lit: i32) -> i32 {
        self.d.calc_reason(&mut self.solver, Some(Lit(lit)), None).len() as i32
    }
    fn table(&mut self) -> &mut [u8] {
        &mut self.solver.table
    }
}

impl Side for Host {
    fn initialize(&mut self) -> i32 {
        Host::initialize(self)
    }
    fn propagate(&mut self, lit: i32, pending: i32) -> i32 {
        Host::propagate(self, lit, pending)
    }
    fn undo(&mut self, lit: i32) -> i32 {
        Host::undo(self, lit)
    }
    fn reason(&mut self, lit: i32) -> i32 {
        Host::reason(self, lit)
    }
    fn table(&mut self) -> &mut [u8] {
        &mut self.table
    }
}

#[derive(Clone, Copy)]
enum Op {
    Initialize,
    Propagate(i32),
    Note(i32),
    Undo(i32),
    Reason(i32),
    // The search's own work on the table, of no call.
    Set(usize, u8),
}

fn set(lit: i32, current: bool) -> Op {
    Op::Set(lit as usize / 2, if current { 3 } else { 1 } + (lit & 1) as u8)
}

fn apply(s: &mut impl Side, op: Op) -> i32 {
    match op {
        Op::Initialize => s.initialize(),
        Op::Propagate(l) => s.propagate(l, 0),
        Op::Note(l) => s.propagate(l, 1),
        Op::Undo(l) => s.undo(l),
        Op::Reason(l) => s.reason(l),
        Op::Set(v, c) => {
            s.table()[v] = c;
            0
        }
    }
}

fn calls_in(ops: &[Op]) -> usize {
    ops.iter().filter(|op| !matches!(op, Op::Set(..))).count()
}

// Calls to be made before, and those to be timed.
type Work = (Vec<Op>, Vec<Op>);

// Half of the edges of the division are in the table; then an initialise.
fn initialise(plan: &Plan) -> Work {
    let mut r = Rng(11);
    let edges = plan.truth[plan.sized()..].iter();
    (edges.filter(|_| r.below(2) == 0).map(|&l| set(l, false)).collect(), vec![Op::Initialize])
}

// Half of the edges of the division are notified. The other literals of the division, of sizes too.
fn half(plan: &Plan) -> (Vec<Op>, Vec<i32>) {
    let mut r = Rng(11);
    let (mut before, mut rest) = (vec![], vec![]);
    for (i, &l) in plan.truth.iter().enumerate() {
        if i >= plan.sized() && r.below(2) == 0 {
            before.extend([set(l, false), Op::Propagate(l)]);
        } else {
            rest.push(l);
        }
    }
    (before, rest)
}

// After half of the edges, other literals of the division are notified and undone, one at a time: at most 256.
fn notify_undo(plan: &Plan) -> Work {
    let (before, rest) = half(plan);
    let mut side = plan.rust();
    for &op in &before {
        apply(&mut side, op);
    }
    let mut ops = vec![];
    for &l in rest.iter().step_by(rest.len().div_ceil(256)) {
        let unset = side.solver.table[l as usize / 2] == 0;
        let mut part = vec![];
        part.extend(unset.then(|| set(l, true)));
        part.push(Op::Propagate(l));
        for &op in &part {
            apply(&mut side, op);
        }
        let mut back: Vec<Op> = side.solver.handed.iter().map(|h| Op::Set(h.0 as usize / 2, 0)).collect();
        back.push(Op::Undo(l));
        back.extend(unset.then(|| Op::Set(l as usize / 2, 0)));
        for &op in &back {
            apply(&mut side, op);
        }
        ops.extend(part);
        ops.extend(back);
    }
    (before, ops)
}

// The reasons of what half of the edges handed on: at most 64.
fn fetches(plan: &Plan) -> Work {
    let (before, _) = half(plan);
    let mut side = plan.rust();
    let mut handed = vec![];
    for &op in &before {
        apply(&mut side, op);
        if let Op::Propagate(_) = op {
            handed.extend(side.solver.handed.iter().map(|l| l.0));
        }
    }
    handed.truncate(64);
    let ops = (0..4).flat_map(|_| handed.iter().map(|&l| Op::Reason(l))).collect();
    (before, ops)
}

// The same with every literal of the division standing.
fn fetches_all(plan: &Plan) -> Work {
    let (mut before, ops) = fetches(plan);
    before.extend(half(plan).1.iter().map(|&l| Op::Note(l)));
    (before, ops)
}

// With half of the literals of the division standing, the others are noted and undone, one at a time: at most 256.
fn note_undo(plan: &Plan) -> Work {
    let (noted, rest) = plan.truth.split_at(plan.variables() / 2);
    let some = rest.iter().step_by(rest.len().div_ceil(256));
    (noted.iter().map(|&l| Op::Note(l)).collect(), some.flat_map(|&l| [Op::Note(l), Op::Undo(l)]).collect())
}

// A search of 400 calls: an unset edge gets a value, mostly the division's; a conflict is taken back, with some more;
// now and then the reason of a literal that was handed on is fetched.
fn search(plan: &Plan) -> Work {
    let mut r = Rng(11);
    let mut side = plan.rust();
    let mut ops = vec![];
    // The literals that stand, each with what it set: itself and what was handed on.
    let mut trail: Vec<(i32, Vec<usize>)> = vec![];
    let mut made = 0;
    let mut queue: Vec<i32> = vec![];
    let do_op = |side: &mut Rust, ops: &mut Vec<Op>, op: Op| {
        ops.push(op);
        apply(side, op)
    };
    while made < 400 {
        let mut sets = vec![];
        let next = queue.pop().or_else(|| {
            // Edges alone: sizes that contradict each other are for a solver's own clauses.
            let edges = plan.sized()..plan.variables();
            let unset: Vec<usize> = edges.filter(|&v| side.solver.table[v] == 0).collect();
            if unset.is_empty() {
                return None;
            }
            let v = unset[r.below(unset.len())];
            sets.push(v);
            Some(plan.truth[v] ^ (r.below(6) == 0) as i32)
        });
        let mut fails = next.is_none();
        if let Some(l) = next {
            if !sets.is_empty() {
                do_op(&mut side, &mut ops, set(l, true));
            }
            fails = do_op(&mut side, &mut ops, Op::Propagate(l)) == CONFLICT;
            made += 1;
            if !fails {
                for h in side.solver.handed.iter().map(|l| l.0).collect::<Vec<_>>() {
                    sets.push(h as usize / 2);
                    queue.push(h);
                    if r.below(8) == 0 {
                        do_op(&mut side, &mut ops, Op::Reason(h));
                        made += 1;
                    }
                }
            }
            trail.push((l, sets));
        }
        if fails {
            queue.clear();
            let back = 1 + r.below(trail.len());
            for _ in 0..back {
                let (l, sets) = trail.pop().unwrap();
                do_op(&mut side, &mut ops, Op::Undo(l));
                made += 1;
                for v in sets {
                    do_op(&mut side, &mut ops, Op::Set(v, 0));
                }
            }
            // What was handed on by what is gone, and what it set, is unset; what still stands keeps its value.
            let standing: Vec<usize> = trail.iter().map(|x| x.0 as usize / 2).collect();
            for v in 0..plan.variables() {
                if side.solver.table[v] != 0 && !standing.contains(&v) {
                    do_op(&mut side, &mut ops, Op::Set(v, 0));
                }
            }
        }
    }
    (vec![], ops)
}

#[link(name = "c")]
extern "C" {
    fn clock_gettime(id: i32, time: *mut [i64; 2]) -> i32;
}

// The thread's own time, in microseconds.
fn now() -> f64 {
    const THREAD: i32 = 3;
    let mut t = [0i64; 2];
    assert_eq!(unsafe { clock_gettime(THREAD, &mut t) }, 0, "the thread's clock");
    t[0] as f64 * 1e6 + t[1] as f64 / 1e3
}

fn median(mut v: Vec<f64>) -> f64 {
    v.sort_by(f64::total_cmp);
    v[v.len() / 2]
}

// Microseconds a call.
#[derive(Clone, Copy)]
struct Times {
    ours: f64,
    rust: f64,
    ratio: f64,
}

// Of one round: the Rust's time, ours, and how many calls they were.
type Sums = (f64, f64, usize);

fn medians(rounds: &[Sums]) -> Times {
    let each = |f: &dyn Fn(&Sums) -> f64| median(rounds.iter().map(f).collect());
    Times { ours: each(&|t| t.1 / t.2 as f64), rust: each(&|t| t.0 / t.2 as f64), ratio: each(&|t| t.1 / t.0) }
}

fn repeated(rounds: usize, mut round: impl FnMut() -> Sums) -> Times {
    medians(&(0..rounds).map(|_| round()).collect::<Vec<_>>())
}

// Both sides replay the calls in turns.
fn replay(a: &mut Rust, b: &mut Host, ops: &[Op]) -> Sums {
    let mut sums = (0.0, 0.0, calls_in(ops));
    for part in ops.chunks(200) {
        let mut answers = [Vec::with_capacity(200), Vec::with_capacity(200)];
        let start = now();
        part.iter().for_each(|&op| answers[0].push(apply(a, op)));
        let between = now();
        part.iter().for_each(|&op| answers[1].push(apply(b, op)));
        sums.1 += now() - between;
        sums.0 += between - start;
        assert!(answers[0] == answers[1], "the answers differ");
    }
    sums
}

fn add(x: Sums, y: Sums) -> Sums {
    (x.0 + y.0, x.1 + y.1, x.2 + y.2)
}

fn timed(plans: &[Plan], rounds: usize, make: impl Fn(&Plan) -> Work) -> Times {
    let made: Vec<Work> = plans.iter().map(make).collect();
    repeated(rounds, || {
        let mut sums = (0.0, 0.0, 0);
        for (plan, (before, ops)) in plans.iter().zip(&made) {
            // One call alone is too short a time.
            for _ in 0..if ops.len() == 1 { 4 } else { 1 } {
                let (mut a, mut b) = (plan.rust(), plan.host());
                for &op in before {
                    assert_eq!(apply(&mut a, op), apply(&mut b, op), "a call before");
                }
                sums = add(sums, replay(&mut a, &mut b, ops));
                assert!(a.table() == b.table(), "the tables differ");
            }
        }
        sums
    })
}

fn building(plans: &[Plan], rounds: usize) -> Times {
    let given: Vec<(Parts, Given)> = plans.iter().map(|p| (p.parts(), p.given())).collect();
    let mut state = vec![0; STATE_LEN];
    repeated(rounds, || {
        let mut sums = (0.0, 0.0, 0);
        for (parts, given) in &given {
            let bytes = given.bytes();
            let start = now();
            for _ in 0..8 {
                black_box(parts.build());
            }
            let between = now();
            for _ in 0..8 {
                assert_eq!(given.build_into(&bytes, &mut state), 0, "building");
            }
            sums = add(sums, (between - start, now() - between, 8));
        }
        sums
    })
}

// The host with half of the edges notified.
fn half_notified(plan: &Plan) -> Host {
    let mut b = plan.host();
    half(plan).0.iter().for_each(|&op| {
        apply(&mut b, op);
    });
    b
}

// The same, and the two vertices of all pairs whose run has the most edges: which, and how many edges.
fn far_apart(plan: &Plan) -> (Host, i32, i32, i32) {
    let mut b = half_notified(plan);
    let pairs = (0..plan.n as i32).flat_map(|from| (0..plan.n as i32).map(move |to| (from, to)));
    let (length, from, to) = pairs.map(|(from, to)| (b.run(from, to), from, to)).max().expect("a vertex");
    assert!(length > 0, "no run has an edge");
    (b, from, to, length)
}

// Microseconds a call, each made 100 times in a round.
fn alone<T>(mut sides: Vec<T>, rounds: usize, mut call: impl FnMut(&mut T)) -> f64 {
    let round = |_| {
        let start = now();
        for side in &mut sides {
            for _ in 0..100 {
                call(side);
            }
        }
        (now() - start) / (100 * sides.len()) as f64
    };
    median((0..rounds).map(round).collect())
}

fn runs(plans: &[Plan], rounds: usize) -> f64 {
    alone(plans.iter().map(far_apart).collect(), rounds, |(b, from, to, length)| {
        assert_eq!(b.run(*from, *to), *length, "a run");
    })
}

// The host with half of the edges notified, a page buffer, and how many bytes its page has.
fn to_be_printed(plan: &Plan) -> (Host, Vec<u8>, i32) {
    let (b, mut page) = (half_notified(plan), vec![0; LINE_LEN * plan.n]);
    let length = b.page(&mut page);
    assert!(length > 0 && length as usize % LINE_LEN == 0, "no page");
    (b, page, length)
}

fn pages(plans: &[Plan], rounds: usize) -> f64 {
    alone(plans.iter().map(to_be_printed).collect(), rounds, |(b, page, length)| {
        assert_eq!(b.page(page), *length, "a page");
    })
}

// Both sides with the first `many` literals of the division standing, all only noted, and literals whose reasons can
// be fetched: recorded by notifications that are undone again, and such as need no path, so that 16 never comes.
fn noted(plan: &Plan, many: usize) -> (Rust, Host, Vec<i32>) {
    let (mut a, mut b) = (plan.rust(), plan.host());
    let (before, _) = half(plan);
    let notified = |op: &Op| if let Op::Propagate(l) = op { Some(Op::Undo(*l)) } else { None };
    let undone = before.iter().rev().filter_map(notified);
    for op in before.iter().copied().chain(undone) {
        assert_eq!(apply(&mut a, op), apply(&mut b, op), "a call before");
    }
    let mut lists: Vec<i32> = (0..2 * plan.variables() as i32).filter(|&l| a.d.has_reason(Lit(l))).collect();
    lists.retain(|&l| b.reason(l) >= 0);
    lists.truncate(16);
    assert!(!lists.is_empty(), "nothing is recorded");
    for &l in &plan.truth[..many] {
        assert_eq!(apply(&mut a, Op::Note(l)), apply(&mut b, Op::Note(l)), "a noted literal");
    }
    (a, b, lists)
}

// The times with more and more literals standing: how many, note only and undo, fetch. A round has all of them.
fn standing(plan: &Plan, rounds: usize) -> Vec<(usize, Times, Times)> {
    let numbers: Vec<usize> = (0..=8).map(|eighth| (plan.variables() - 1) * eighth / 8).collect();
    let mut sides: Vec<(Rust, Host, Vec<i32>)> = numbers.iter().map(|&many| noted(plan, many)).collect();
    let mut made = vec![(vec![], vec![]); numbers.len()];
    for _ in 0..rounds {
        for ((a, b, lists), (&many, kept)) in sides.iter_mut().zip(numbers.iter().zip(&mut made)) {
            let l = plan.truth[many];
            let pairs: Vec<Op> = (0..50).flat_map(|_| [Op::Note(l), Op::Undo(l)]).collect();
            kept.0.push(replay(a, b, &pairs));
            let fetched: Vec<Op> = lists.iter().cycle().take(100).map(|&l| Op::Reason(l)).collect();
            kept.1.push(replay(a, b, &fetched));
        }
    }
    numbers.iter().zip(made).map(|(&many, (note, fetch))| (many, medians(&note), medians(&fetch))).collect()
}

// The slope of the line nearest to the points: nanoseconds a standing literal and call.
fn slope(points: &[(f64, f64)]) -> f64 {
    let n = points.len() as f64;
    let (mx, my) = (points.iter().map(|p| p.0).sum::<f64>() / n, points.iter().map(|p| p.1).sum::<f64>() / n);
    let over = points.iter().map(|p| (p.0 - mx) * (p.1 - my)).sum::<f64>();
    1000.0 * over / points.iter().map(|p| (p.0 - mx) * (p.0 - mx)).sum::<f64>()
}

// The stack below a call is painted, and what lost its paint was used.
const AREA: usize = 1 << 20;
const PAINT: u64 = 0xa5a5_a5a5_a5a5_a5a5;

#[inline(never)]
fn paint() {
    let mut area = std::mem::MaybeUninit::<[u64; AREA / 8]>::uninit();
    let p = area.as_mut_ptr() as *mut u64;
    for i in 0..AREA / 8 {
        unsafe { p.add(i).write_volatile(PAINT) };
    }
    black_box(p);
}

#[inline(never)]
fn unpainted(top: usize) -> usize {
    // Its own frame, and that of `paint`, are far above the area's lowest part.
    let lowest = (top - AREA + 16384) & !7;
    let mut at = lowest;
    while at < top && unsafe { (at as *const u64).read_volatile() } == PAINT {
        at += 8;
    }
    assert!(at > lowest, "a call used more stack than is painted");
    top - at
}

#[inline(never)]
fn stack_of(mut f: impl FnMut()) -> usize {
    let here = 0u8;
    let top = black_box(&here as *const u8 as usize);
    paint();
    f();
    unpainted(top)
}

// The bytes of stack that the host's calls use: building, initialise, notify, undo, fetch, run, page; of notify, undo
// and fetch the most that one of them uses in a search, while literals are only noted, or with all literals standing.
fn stacks(plan: &Plan) -> [usize; 7] {
    let none = stack_of(|| {
        black_box(());
    });
    let given = plan.given();
    let (bytes, mut state) = (given.bytes(), vec![0; STATE_LEN]);
    let mut most = [0; 7];
    most[0] = stack_of(|| {
        black_box(given.build_into(&bytes, &mut state));
    });
    for (before, ops) in [initialise(plan), search(plan), note_undo(plan), fetches_all(plan)] {
        let mut b = plan.host();
        before.iter().for_each(|&op| {
            apply(&mut b, op);
        });
        for &op in &ops {
            let which = match op {
                Op::Initialize => 1,
                Op::Propagate(_) | Op::Note(_) => 2,
                Op::Undo(_) => 3,
                Op::Reason(_) => 4,
                Op::Set(..) => {
                    apply(&mut b, op);
                    continue;
                }
            };
            most[which] = most[which].max(stack_of(|| {
                black_box(apply(&mut b, op));
            }));
        }
    }
    let (mut b, from, to, _) = far_apart(plan);
    most[5] = stack_of(|| {
        black_box(b.run(from, to));
    });
    let (b, mut page, _) = to_be_printed(plan);
    most[6] = stack_of(|| {
        black_box(b.page(&mut page));
    });
    most.map(|x| x.saturating_sub(none))
}

fn row(out: &mut Vec<String>, calls: &str, size: &str, t: Times, stack: &[usize], grows: Option<f64>, wanted: &str) {
    let mut s = format!("| {calls} | {size} | {:.2} | {:.2} | {:.2} ", t.ours, t.rust, t.ratio);
    let used = stack.iter().map(|x| format!("{:.0}", *x as f64 / 1000.0)).collect::<Vec<_>>().join(", ");
    let grown = grows.map_or("-".to_string(), |g| format!("{g:.1}"));
    write!(s, "| {used} | {grown} | {wanted} |").unwrap();
    out.push(s);
}

fn bench(rounds: usize, figures: &str) {
    let mut rows: Vec<Vec<String>> = vec![vec![]; 9];
    let mut points = "plan\tstanding\tnote ours\tnote Rust\tfetch ours\tfetch Rust\n".to_string();
    for (name, n, m, k) in [("S", 10, 15, 6), ("M", 30, 45, 6), ("L", 64, 128, 6), ("X", 64, 128, 32)] {
        let mut r = Rng(7);
        let plans: Vec<Plan> = (0..3).map(|_| Plan::new(&mut r, n, m, k)).collect();
        eprintln!("{name}: {n} vertices, {m} edges, {} literals", plans[0].variables());
        let [build, init, notify, undo, fetch, run, page] = stacks(&plans[0]);
        let grown = standing(&plans[0], rounds);
        for (many, note, fetch) in &grown {
            let times = [note.ours, note.rust, fetch.ours, fetch.rust].map(|t| format!("{t:.4}")).join("\t");
            writeln!(points, "{name}\t{many}\t{times}").unwrap();
        }
        let noting = slope(&grown.iter().map(|p| (p.0 as f64, p.1.ours)).collect::<Vec<_>>());
        let fetching = slope(&grown.iter().map(|p| (p.0 as f64, p.2.ours)).collect::<Vec<_>>());
        let pair = [notify, undo];
        let t = timed(&plans, rounds, notify_undo);
        row(&mut rows[0], "notify, then undo", name, t, &pair, None, "0.8");
        let t = timed(&plans, rounds, search);
        row(&mut rows[1], "a search", name, t, &[notify, undo, fetch], None, "1.0");
        let t = timed(&plans, rounds, initialise);
        row(&mut rows[2], "initialise", name, t, &[init], None, "0.6");
        let t = timed(&plans, rounds, fetches);
        row(&mut rows[3], "fetch", name, t, &[fetch], Some(fetching), "3");
        let t = timed(&plans, rounds, fetches_all);
        row(&mut rows[4], "fetch, all standing", name, t, &[fetch], None, "3");
        let t = timed(&plans, rounds, note_undo);
        row(&mut rows[5], "note only, then undo", name, t, &pair, Some(noting), "-");
        let t = building(&plans, rounds);
        row(&mut rows[6], "building", name, t, &[build], None, "100 µs");
        let ours_only = |calls: &str, ours: f64, used: usize| {
            format!("| {calls} | {name} | {ours:.2} | - | - | {:.0} | - | 100 µs |", used as f64 / 1000.0)
        };
        rows[7].push(ours_only("run", runs(&plans, rounds), run));
        rows[8].push(ours_only("page", pages(&plans, rounds), page));
    }
    std::fs::write(figures, points).expect("the file of figures");
    println!("| Calls | Yard | Ours, µs | Rust, µs | Ratio | Stack, KB | Growth, ns | Wanted |");
    println!("|---|---|---|---|---|---|---|---|");
    println!("{}", rows.concat().join("\n"));
}

fn main() {
    let args: Vec<String> = std::env::args().skip(1).collect();
    let rounds: usize = args[0].parse().expect("how many rounds");
    // A thread of its own, whose stack has room for what is painted.
    let work = std::thread::Builder::new().stack_size(16 << 20);
    work.spawn(move || bench(rounds, &args[1])).expect("a thread").join().expect("the bench");
}
