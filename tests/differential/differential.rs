// Compares the program `yard` and the C host with the Rust's `GraphDivision` on random sessions: plans, then values of the table,
// initialise, notify, undo and fetch, refused calls among them. Every line that the program writes is compared: verdicts, handed-on
// literals, reasons, lists and refusals. The host is asked the same, and after each call its table is compared too; in between it is lent
// damaged or short buffers, which must be refused with 7 and left as they were.
//   differential run YARD SEED CALLS   sessions until CALLS calls were made; the first that differ are made shorter and printed
//   differential answers               the answers to the sessions of standard input, each ended by a line `---`
//   differential sessions SEED COUNT   prints COUNT sessions
// What the Rust does not test (refusals 8 to 11, 15) is tested here, by document 01's text; refusals 13, 14 and 16 are where the Rust
// panics. After a refusal the Rust's state is built again from the calls that were accepted.
// At crossed bounds the Rust panics too, and document 02 has a conflict that stands. A session is compared up to the
// first of these: its list is asked for, and its newest literal undone. What is expected there is worked out from the
// literals that stand (tests/rust/crossed.rs).
// Each proposal that the Rust registers on the way is counted, and so are those of a literal that stands or whose
// negation stands (tests/rust/proposals.rs): document 02, request 5, has it that there are none.
#![allow(dead_code)]
use std::io::{Read, Write};
use std::panic::{catch_unwind, AssertUnwindSafe};
use std::process::{Command, Stdio};

#[path = "../rust/sat.rs"]
mod sat;

#[path = "../rust/crossed.rs"]
mod crossed;

#[path = "../rust/solver.rs"]
mod solver;

#[path = "../rust/host.rs"]
mod host;

#[path = "../analysis/generate.rs"]
mod generate;

mod graph_division {
    include!(env!("GRAPH_DIVISION_COPY"));
    include!("../rust/first_match.rs");
    include!("../rust/proposals.rs");

    impl GraphDivision {
        pub fn lits(&self) -> &[Lit] {
            &self.unique_lits
        }

        pub fn last(&self) -> &[Lit] {
            &self.inconsistency_reason
        }

        pub fn has_reason(&self, lit: Lit) -> bool {
            let i = self.unique_lits.binary_search(&lit).unwrap();
            !matches!(self.propagation_reasons[i], Reason::NotPropagated)
        }
    }
}

use generate::Rng;
use graph_division::{GraphDivision, GraphDivisionOptions};
use host::{Given, Host};
use sat::{CustomPropagator, Lit, SolverManipulator};
use solver::{code, Solver};

#[derive(Clone)]
enum Op {
    Initialize,
    Propagate(Lit, i32),
    Undo(Lit),
}

// A plan's lines, split into fields.
#[derive(Default)]
struct Plan {
    opts: (bool, bool),
    weights: Vec<i32>,
    domains: Vec<Vec<i32>>,
    dom_lits: Vec<Vec<Lit>>,
    edges: Vec<(usize, usize)>,
    edge_lits: Vec<Lit>,
}

impl Plan {
    fn take(&mut self, letter: &str, f: &[i32]) -> bool {
        match letter {
            "O" => self.opts = (f[0] == 1, f[1] == 1),
            "P" => {
                let k = f[1] as usize;
                self.weights.push(f[0]);
                self.domains.push(f[2..2 + k].to_vec());
                self.dom_lits.push(if k == 0 { vec![] } else { f[2 + k..].iter().map(|&l| Lit(l)).collect() });
            }
            "G" => {
                self.edges.push((f[0] as usize, f[1] as usize));
                self.edge_lits.push(Lit(f[2]));
            }
            _ => return false,
        }
        true
    }

    fn build(&self) -> GraphDivision {
        let opts = GraphDivisionOptions { disallow_adjacent_same_size_regions: self.opts.0, allow_extra_walls: self.opts.1 };
        GraphDivision::new(&self.domains, &self.dom_lits, &self.weights, &self.edges, &self.edge_lits, &opts)
    }
}

// The Rust with document 01's tests before it.
struct Session {
    plan: Plan,
    d: GraphDivision,
    table: Vec<u8>,
    standing: Vec<Lit>,
    done: bool,
    // What was accepted, with the table that it was lent.
    accepted: Vec<(Op, Vec<u8>)>,
    // The list of crossed bounds, once these were met: then the Rust is asked no more.
    crossed: Option<Vec<Lit>>,
}

enum Outcome {
    Consistent(Vec<Lit>),
    Conflict,
    Panicked(String),
}

fn attempt(d: &mut GraphDivision, op: &Op, solver: &mut Solver) -> Result<bool, String> {
    catch_unwind(AssertUnwindSafe(|| match op {
        Op::Initialize => d.initialize(solver),
        Op::Propagate(l, pending) => d.propagate(solver, *l, *pending),
        Op::Undo(l) => {
            d.undo(solver, *l);
            true
        }
    }))
    .map_err(|e| match (e.downcast_ref::<String>(), e.downcast_ref::<&str>()) {
        (Some(s), _) => s.clone(),
        (_, Some(s)) => s.to_string(),
        _ => String::new(),
    })
}

// The refusal at which the Rust panics so.
fn refusal(text: &str) -> i32 {
    if text.ends_with(&format!("the index is {}", usize::MAX)) {
        13
    } else if text == "assertion failed: cur_level" {
        14
    } else if text == "assertion failed: prev[v].is_some()" {
        16
    } else {
        panic!("the Rust panics: {text}")
    }
}

fn say(letter: &str, lits: &[Lit]) -> String {
    let mut s = letter.to_string();
    for l in lits {
        s += &format!("\t{}", l.0);
    }
    s + "\n"
}

impl Session {
    fn new(plan: Plan) -> Session {
        let d = plan.build();
        Session { plan, d, table: vec![0; 4096], standing: vec![], done: false, accepted: vec![], crossed: None }
    }

    fn crossing(&self) -> Option<Vec<Lit>> {
        crossed::crossed(&self.plan.domains, &self.plan.dom_lits, &self.standing)
    }

    // The conflict at which the Rust panics; the literals stand already.
    fn cross(&mut self) -> String {
        self.crossed = self.crossing();
        assert!(self.crossed.is_some(), "the Rust panics at bounds that do not cross");
        "X\n".into()
    }

    // What is asked after that conflict: its list, and to undo the newest, which stands.
    fn ending(&self) -> String {
        format!("R\t-\nU\t{}\n", self.standing.last().expect("a literal that stands").0)
    }

    fn known(&self, lit: i32) -> bool {
        (0..8192).contains(&lit) && self.d.lits().binary_search(&Lit(lit)).is_ok()
    }

    fn stands(&self, lit: Lit) -> bool {
        self.standing.iter().any(|s| s.0 / 2 == lit.0 / 2)
    }

    fn again(&mut self) {
        self.d = self.plan.build();
        for (op, table) in &self.accepted {
            let mut solver = Solver { table: table.clone(), handed: vec![] };
            attempt(&mut self.d, op, &mut solver).expect("a call that was accepted");
        }
    }

    // The call on the Rust. A refusal leaves the table as it was.
    fn call(&mut self, op: Op) -> Outcome {
        assert!(self.crossed.is_none(), "the Rust is not asked after crossed bounds");
        let before = self.table.clone();
        let mut solver = Solver { table: before.clone(), handed: vec![] };
        match attempt(&mut self.d, &op, &mut solver) {
            Ok(ok) => {
                self.table = solver.table;
                self.accepted.push((op, before));
                if ok { Outcome::Consistent(solver.handed) } else { Outcome::Conflict }
            }
            Err(text) => {
                self.again();
                Outcome::Panicked(text)
            }
        }
    }

    fn initialize(&mut self) -> String {
        if self.done {
            return "E\t8\n".into();
        }
        let solver = Solver { table: self.table.clone(), handed: vec![] };
        let entered: Vec<Lit> = self.d.lits().iter().copied().filter(|&l| unsafe { solver.value(l) } == Some(true)).collect();
        // 10 is tested literal by literal: those before a literal that stands are notified first.
        let first = entered.iter().position(|&l| self.stands(l));
        if let Some(k) = first {
            return self.initialize_up_to(&entered[..k]);
        }
        match self.call(Op::Initialize) {
            Outcome::Consistent(handed) => {
                self.standing.extend(&entered);
                assert!(self.crossing().is_none(), "the Rust goes on with crossed bounds");
                self.done = true;
                say("C", &handed)
            }
            Outcome::Conflict => {
                // Up to and with the first whose own analysis is a conflict: counted on a copy.
                let (op, table) = self.accepted.pop().unwrap();
                let mut copy = Session::new(std::mem::take(&mut self.plan));
                copy.accepted = std::mem::take(&mut self.accepted);
                copy.again();
                let mut solver = Solver { table: table.clone(), handed: vec![] };
                for &l in &entered {
                    self.standing.push(l);
                    if !attempt(&mut copy.d, &Op::Propagate(l, 0), &mut solver).unwrap() {
                        break;
                    }
                }
                self.plan = copy.plan;
                self.accepted = copy.accepted;
                self.accepted.push((op, table));
                "X\n".into()
            }
            // Crossed bounds in the last pass: where something was notified, that state was analyzed before.
            Outcome::Panicked(text) if crossed::is_panic(&text) && entered.is_empty() => self.cross(),
            Outcome::Panicked(text) if crossed::is_panic(&text) => {
                let answer = self.initialize_up_to(&entered);
                assert!(self.crossed.is_some(), "a literal whose own analysis meets crossed bounds");
                answer
            }
            Outcome::Panicked(text) => format!("E\t{}\n", refusal(&text)),
        }
    }

    // The literals before one that stands: a conflict or a refusal of theirs comes first, else it is 10.
    fn initialize_up_to(&mut self, lits: &[Lit]) -> String {
        let before = self.table.clone();
        let many = self.accepted.len();
        let mut solver = Solver { table: before.clone(), handed: vec![] };
        let mut answer = "E\t10\n".to_string();
        for (i, &l) in lits.iter().enumerate() {
            let lent = solver.table.clone();
            match attempt(&mut self.d, &Op::Propagate(l, 0), &mut solver) {
                Ok(ok) => {
                    self.accepted.push((Op::Propagate(l, 0), lent));
                    if !ok {
                        self.standing.extend(&lits[..=i]);
                        self.table = solver.table;
                        return "X\n".into();
                    }
                }
                Err(text) if crossed::is_panic(&text) => {
                    self.standing.extend(&lits[..=i]);
                    self.table = solver.table;
                    return self.cross();
                }
                Err(text) => {
                    answer = format!("E\t{}\n", refusal(&text));
                    break;
                }
            }
        }
        self.accepted.truncate(many);
        self.table = before;
        self.again();
        answer
    }

    fn propagate(&mut self, lit: i32, pending: i32) -> String {
        let before = self.table.clone();
        if (0..8192).contains(&lit) && self.table[lit as usize / 2] == 0 {
            self.table[lit as usize / 2] = code(Lit(lit));
        }
        let refused = if !self.known(lit) {
            9
        } else if self.stands(Lit(lit)) {
            10
        } else {
            match self.call(Op::Propagate(Lit(lit), pending)) {
                Outcome::Panicked(text) if crossed::is_panic(&text) => {
                    self.standing.push(Lit(lit));
                    return self.cross();
                }
                Outcome::Panicked(text) => refusal(&text),
                out => {
                    self.standing.push(Lit(lit));
                    return match out {
                        Outcome::Consistent(_) if pending != 0 => "L\n".into(),
                        Outcome::Consistent(handed) => {
                            assert!(self.crossing().is_none(), "the Rust goes on with crossed bounds");
                            say("C", &handed)
                        }
                        _ => "X\n".into(),
                    };
                }
            }
        };
        self.table = before;
        format!("E\t{refused}\n")
    }

    fn undo(&mut self, lit: i32) -> String {
        if !self.known(lit) {
            return "E\t9\n".into();
        }
        if self.standing.last() != Some(&Lit(lit)) {
            return "E\t11\n".into();
        }
        if self.crossed.is_none() {
            self.call(Op::Undo(Lit(lit)));
        }
        self.standing.pop();
        self.table[lit as usize / 2] = 0;
        "C\n".into()
    }

    fn reason(&mut self, lit: i32) -> String {
        assert!(self.crossed.is_none(), "the Rust is not asked after crossed bounds");
        if !self.known(lit) {
            return "E\t9\n".into();
        }
        if !self.d.has_reason(Lit(lit)) {
            return "E\t15\n".into();
        }
        let mut solver = Solver { table: vec![], handed: vec![] };
        match catch_unwind(AssertUnwindSafe(|| self.d.calc_reason(&mut solver, Some(Lit(lit)), None))) {
            Ok(list) => say("R", &list),
            Err(_) => "E\t16\n".into(),
        }
    }

}

impl Side for Session {
    fn initialize(&mut self) -> String {
        Session::initialize(self)
    }
    fn propagate(&mut self, lit: i32, pending: i32) -> String {
        Session::propagate(self, lit, pending)
    }
    fn undo(&mut self, lit: i32) -> String {
        Session::undo(self, lit)
    }
    fn reason(&mut self, lit: i32) -> String {
        Session::reason(self, lit)
    }
    fn last(&mut self) -> String {
        say("R", self.crossed.as_deref().unwrap_or(self.d.last()))
    }
    fn table(&mut self) -> &mut [u8] {
        &mut self.table
    }
}

// One that answers a session's calls, as the program's lines do.
trait Side {
    fn initialize(&mut self) -> String;
    fn propagate(&mut self, lit: i32, pending: i32) -> String;
    fn undo(&mut self, lit: i32) -> String;
    fn reason(&mut self, lit: i32) -> String;
    fn last(&mut self) -> String;
    fn table(&mut self) -> &mut [u8];

    fn line(&mut self, letter: &str, f: &[&str]) -> String {
        let n = |i: usize| f[i].parse::<i32>().expect("a number");
        match letter {
            "V" => {
                self.table()[n(0) as usize] = n(1) as u8;
                String::new()
            }
            "I" => self.initialize(),
            "N" => self.propagate(n(0), n(1)),
            "U" => self.undo(n(0)),
            "R" if f[0] == "-" => self.last(),
            "R" => self.reason(n(0)),
            _ => panic!("a line of a session: {letter}"),
        }
    }
}

// The C host, lent a whole table and the other buffers as short as they may be.
struct Hosted {
    host: Host,
    // The first literal of the plan, if any, and its numbers of vertices and edges.
    some_lit: Option<i32>,
    vertices: usize,
    edges: usize,
    // The entries that a table must have.
    entries: usize,
    calls: usize,
}

impl Hosted {
    fn new(plan: Plan) -> Hosted {
        let lits: Vec<i32> = plan.build().lits().iter().map(|l| l.0).collect();
        let numbers = |ls: &[Lit]| ls.iter().map(|l| l.0).collect::<Vec<_>>();
        let given = Given {
            vertices: (0..plan.weights.len()).map(|v| (plan.weights[v], plan.domains[v].clone(), numbers(&plan.dom_lits[v]))).collect(),
            edges: plan.edges.iter().zip(&plan.edge_lits).map(|(e, l)| [e.0 as i32, e.1 as i32, l.0]).collect(),
            same_size: plan.opts.0,
            extra_walls: plan.opts.1,
        };
        let entries = lits.last().map_or(0, |l| *l as usize / 2 + 1);
        Hosted { host: given.build(4096, lits.len()), some_lit: lits.first().copied(), vertices: plan.weights.len(), edges: plan.edges.len(), entries, calls: 0 }
    }

    // An answer's number as the program prints it, with what is at the start of `bytes`.
    fn answer(&mut self, letter: &str, code: i32, bytes: &[u8]) -> String {
        let answered = match code {
            host::CONFLICT => "X\n".into(),
            host::NOTED => "L\n".into(),
            refused if refused < 0 => format!("E\t{}\n", -refused),
            given => say(letter, &host::literals(bytes, given).into_iter().map(Lit).collect::<Vec<_>>()),
        };
        self.calls += 1;
        answered + &self.damaged()
    }

    // Now and then the plan's own test, which must pass, and a call with one thing wrong: nothing to say where it is refused with 7 and
    // leaves all bytes.
    fn damaged(&mut self) -> String {
        if self.calls % 8 != 3 {
            return String::new();
        }
        let (lit, which) = (self.some_lit.unwrap_or(0), self.calls / 8 % 11);
        if self.host.check() != 0 {
            return "the plan fails its own test\n".into();
        }
        let whole = self.host.clone();
        let h = &mut self.host;
        match which {
            0 => h.table[self.calls % 4096] = 5,
            1 if self.entries > 0 => h.table.truncate(self.entries - 1),
            2 if !h.list.is_empty() => h.list.truncate(h.list.len() - 1),
            3 => h.buffer.truncate(h.buffer.len() - 1),
            4 if !h.log.is_empty() => h.log.truncate(h.log.len() - 1),
            5 => h.cursor[2] = 255,
            6 => h.cursor[4] ^= 1,
            // A noted word: an edge's state, or a vertex's lower bound.
            7 if self.edges > 0 => h.state[61220 + 4 * (self.calls % self.edges)] ^= 3,
            8 if self.vertices > 0 => h.state[61220 + 4 * (128 + self.calls % self.vertices)] ^= 1,
            // The plan's number of vertices; a state that ends early.
            9 => h.state[0] = 65,
            // A vertex's weight, which the plan's own test alone looks at.
            10 if self.vertices > 0 => h.state[4 * (8 + self.calls % self.vertices) + 3] = 255,
            _ => h.state.truncate(host::STATE_LEN - 1),
        }
        let lent = h.clone();
        let code = match which {
            3 => h.last(),
            0 | 1 | 2 if self.calls / 80 % 2 == 0 => h.initialize(),
            4 | 6 | 8 => h.undo(lit),
            5 => h.reason(lit),
            10 => h.check(),
            _ => h.propagate(lit, 0),
        };
        let kept = *h == lent;
        self.host = whole;
        if code == -7 && kept { String::new() } else { format!("damage {which} is answered with {code}, all bytes kept: {kept}\n") }
    }
}

impl Side for Hosted {
    fn initialize(&mut self) -> String {
        let code = self.host.initialize();
        self.answer("C", code, &self.host.list.clone())
    }
    fn propagate(&mut self, lit: i32, pending: i32) -> String {
        let at = if (0..8192).contains(&lit) && self.host.table[lit as usize / 2] == 0 { Some(lit as usize / 2) } else { None };
        if let Some(v) = at {
            self.host.table[v] = code(Lit(lit));
        }
        let code = self.host.propagate(lit, pending);
        if let (Some(v), -99..=-1) = (at, code) {
            self.host.table[v] = 0;
        }
        self.answer("C", code, &self.host.list.clone())
    }
    fn undo(&mut self, lit: i32) -> String {
        let code = self.host.undo(lit);
        if code == 0 {
            self.host.table[lit as usize / 2] = 0;
        }
        self.answer("C", code, &[])
    }
    fn reason(&mut self, lit: i32) -> String {
        let code = self.host.reason(lit);
        self.answer("R", code, &self.host.buffer.clone())
    }
    fn last(&mut self) -> String {
        let code = self.host.last();
        self.answer("R", code, &self.host.buffer.clone())
    }
    fn table(&mut self) -> &mut [u8] {
        &mut self.host.table
    }
}

// Asks the calls of a session one by one. `each` is told the line's number, the side after it and its answer, and says
// whether to go on.
fn walk<S: Side>(text: &str, begin: impl Fn(Plan) -> S, mut each: impl FnMut(usize, &mut S, String) -> bool) {
    let mut plan = Some(Plan::default());
    let mut side = None;
    for (i, line) in text.lines().enumerate() {
        let mut fields = line.split('\t');
        let letter = fields.next().unwrap();
        let f: Vec<&str> = fields.collect();
        if side.is_none() {
            let numbers: Vec<i32> = f.iter().map_while(|x| x.parse().ok()).collect();
            if plan.as_mut().unwrap().take(letter, &numbers) {
                continue;
            }
            side = Some(begin(plan.take().unwrap()));
        }
        let side = side.as_mut().unwrap();
        let answer = side.line(letter, &f);
        if !each(i, side, answer) {
            break;
        }
    }
}

// The answers to a session, each followed by a line T with the table's entries that are set.
fn replay<S: Side>(text: &str, begin: impl Fn(Plan) -> S) -> String {
    let mut out = String::new();
    walk(text, begin, |_, side, answer| {
        out += &answer;
        out.push('T');
        for (v, c) in side.table().iter().enumerate().filter(|x| *x.1 != 0) {
            out += &format!(" {v}:{c}");
        }
        out.push('\n');
        true
    });
    out
}

// A session up to the first conflict of crossed bounds, with what is asked after it.
fn cut(text: &str) -> String {
    let mut ends = None;
    walk(text, Session::new, |i, s, _| {
        ends = s.crossed.is_some().then(|| (i, s.ending()));
        ends.is_none()
    });
    let Some((i, ending)) = ends else { return text.to_string() };
    text.split_inclusive('\n').take(i + 1).collect::<String>() + &ending
}

fn without_tables(answers: &str) -> String {
    answers.split_inclusive('\n').filter(|l| !l.starts_with('T')).collect()
}

fn answers(text: &str) -> String {
    without_tables(&replay(text, Session::new))
}

// An initialise where two size literals of a vertex contradict each other: by their values, which it notifies, or since
// both were noted and unset again, so that it may be the last pass that meets them.
fn contradiction(r: &mut Rng, plan: &Plan) -> Vec<String> {
    let wide: Vec<&Vec<Lit>> = plan.dom_lits.iter().filter(|lits| lits.len() > 1).collect();
    if wide.is_empty() {
        return vec![];
    }
    let lits = wide[r.below(wide.len())];
    let pair = [!lits[r.below(lits.len() - 1)], lits[lits.len() - 1]];
    let mut lines: Vec<String> = if r.chance(50) {
        pair.iter().map(|&l| format!("V\t{}\t{}", l.0 / 2, code(l) - 2 * r.below(2) as u8)).collect()
    } else {
        let noted = pair.iter().map(|l| format!("N\t{}\t1", l.0));
        noted.chain(pair.iter().map(|l| format!("V\t{}\t0", l.0 / 2))).collect()
    };
    lines.push("I".into());
    lines
}

// The plan of a random block, and calls on it; and the letter of the call that met crossed bounds, if one did. The
// literals are mostly the plan's, undone mostly the newest. A call that meets crossed bounds ends the session; most
// such notifications are left out, so that sessions get long all the same.
fn session(r: &mut Rng) -> (String, Option<char>) {
    let mut block = vec![];
    generate::block(r, &mut block);
    // A plan without literals has little to ask; most of these are left out.
    while !block.windows(2).any(|w| w == b"G\t") && !r.chance(5) {
        block.clear();
        generate::block(r, &mut block);
    }
    let block = String::from_utf8(block).unwrap();
    let mut plan = Plan::default();
    let mut text = String::new();
    let mut wanted: Vec<i32> = vec![];
    for line in block.lines() {
        let mut fields = line.split('\t');
        let letter = fields.next().unwrap();
        let f: Vec<i32> = fields.map_while(|x| x.parse().ok()).collect();
        if plan.take(letter, &f) {
            text += line;
            text.push('\n');
        } else if letter == "N" {
            wanted.push(f[0]);
        }
    }
    let mut s = Session::new(plan);
    let lits: Vec<i32> = s.d.lits().iter().map(|l| l.0).collect();
    let steps = 10 + r.below(if lits.len() > 400 { 60 } else { 300 });
    let begins = r.below(3);
    let (contradicts, mut queued) = (r.below(100), std::collections::VecDeque::new());
    for k in 0..steps {
        if k == contradicts && !s.done {
            queued.extend(contradiction(r, &s.plan));
        }
        let any = |r: &mut Rng| if lits.is_empty() || r.chance(2) { r.below(8300) as i32 - 50 } else { lits[r.below(lits.len())] };
        let line = match r.below(100) {
            _ if !queued.is_empty() => queued.pop_front().unwrap(),
            _ if k == 0 && begins == 0 => "I".to_string(),
            0..=5 => {
                let v = if lits.is_empty() || r.chance(3) { r.below(4096) as i32 } else { any(r).clamp(0, 8191) / 2 };
                format!("V\t{v}\t{}", r.below(5))
            }
            6..=8 => "I".to_string(),
            9..=30 => {
                let newest = s.standing.last().map_or(any(r), |l| l.0);
                format!("U\t{}", if r.chance(93) { newest } else { any(r) })
            }
            31..=37 => "R\t-".to_string(),
            38..=48 => format!("R\t{}", any(r)),
            _ => {
                let mut l = wanted.pop().filter(|_| r.chance(70)).unwrap_or_else(|| any(r));
                // Mostly one that does not stand yet.
                for _ in 0..8 {
                    if s.stands(Lit(l)) && r.chance(80) {
                        l = any(r);
                    }
                }
                // A literal that is false in the table is notified by its negation, mostly.
                if (0..8192).contains(&l) && r.chance(85) && unsafe { Solver { table: s.table.clone(), handed: vec![] }.value(Lit(l)) } == Some(false) {
                    l ^= 1;
                }
                format!("N\t{l}\t{}", if r.chance(80) { 0 } else { r.below(5) as i32 - 2 })
            }
        };
        let mut fields = line.split('\t');
        let letter = fields.next().unwrap();
        let f: Vec<&str> = fields.collect();
        let (table, standing, accepted) = (s.table.clone(), s.standing.len(), s.accepted.len());
        s.line(letter, &f);
        if s.crossed.is_some() && letter == "N" && !r.chance(10) {
            s.crossed = None;
            s.table = table;
            s.standing.truncate(standing);
            s.accepted.truncate(accepted);
            s.again();
            continue;
        }
        text += &line;
        text.push('\n');
        if s.crossed.is_some() {
            return (text + &s.ending(), letter.chars().next());
        }
    }
    (text, None)
}

fn ask(yard: &str, text: &str) -> String {
    let mut child = Command::new(yard).stdin(Stdio::piped()).stdout(Stdio::piped()).spawn().expect("the program yard");
    child.stdin.take().unwrap().write_all(text.as_bytes()).expect("the session");
    let mut out = String::new();
    child.stdout.take().unwrap().read_to_string(&mut out).expect("the answers");
    child.wait().expect("the program's end");
    out
}

fn calls_in(text: &str) -> usize {
    text.lines().filter(|l| matches!(l.as_bytes()[0], b'I' | b'N' | b'U' | b'R')).count()
}

// Which of the two answers otherwise than the Rust, if one does.
fn differs(yard: &str, text: &str, right: &str) -> Option<&'static str> {
    if without_tables(right) != ask(yard, text) {
        Some("yard")
    } else if right != replay(text, Hosted::new) {
        Some("the host")
    } else {
        None
    }
}

// Lines are left out one at a time, as long as the answers still differ, until none can be.
fn shorter(yard: &str, text: &str) -> String {
    let mut lines: Vec<&str> = text.lines().collect();
    loop {
        let many = lines.len();
        let mut i = many;
        while i > 0 {
            i -= 1;
            if matches!(lines[i].as_bytes()[0], b'O' | b'P' | b'G') {
                continue;
            }
            let mut fewer = lines.clone();
            fewer.remove(i);
            let t = fewer.join("\n") + "\n";
            // Without the line another call may be the one that meets crossed bounds.
            let right = catch_unwind(AssertUnwindSafe(|| (cut(&t) == t).then(|| replay(&t, Session::new))));
            if matches!(right, Ok(Some(a)) if differs(yard, &t, &a).is_some()) {
                lines = fewer;
            }
        }
        if lines.len() == many {
            return lines.join("\n") + "\n";
        }
    }
}

// The counts where literal `noted` is noted, `undone` is undone in its place, and the Rust is initialised. Its undo takes
// back what the newest literal did, and counts the named one as not notified: refusal 11 shuts that out.
fn miscounted(noted: i32, undone: i32) -> [usize; 3] {
    let mut plan = Plan::default();
    plan.take("P", &[1, 0]);
    plan.take("G", &[0, 0, 0]);
    let mut d = plan.build();
    let mut solver = Solver { table: vec![0], handed: vec![] };
    for op in [Op::Propagate(Lit(noted), 1), Op::Undo(Lit(undone)), Op::Initialize] {
        attempt(&mut d, &op, &mut solver).expect("a call that the Rust takes");
    }
    graph_division::counts()
}

// Prints the counts of the proposals, and says whether they are right.
fn nothing_standing_proposed() -> bool {
    let [proposed, of_notified, of_negation] = graph_division::counts();
    print!("the Rust registered {proposed} proposals: {of_notified} of a literal that stands, ");
    println!("{of_negation} of one whose negation stands");
    // Counts that do not rise where the Rust does propose such literals would show nothing.
    let rise = miscounted(1, 0) == [1, 1, 0] && miscounted(0, 1) == [1, 0, 1];
    if !rise {
        println!("the counts do not rise at calls where the Rust proposes such literals");
    }
    rise && proposed > 0 && of_notified + of_negation == 0
}

fn run(yard: &str, seed: u64, calls: usize) -> bool {
    let mut r = Rng::new(seed);
    let (mut sessions, mut made, mut failed) = (0, 0, 0);
    let mut answered = [0usize; 256];
    let mut refused = [0usize; 20];
    // Sessions that end with crossed bounds, met by a notification or by an initialise.
    let (mut by_notification, mut by_initialize) = (0, 0);
    while made < calls {
        let (text, crossed) = session(&mut r);
        by_notification += usize::from(crossed == Some('N'));
        by_initialize += usize::from(crossed == Some('I'));
        let right = replay(&text, Session::new);
        sessions += 1;
        made += calls_in(&text);
        for l in right.lines().filter(|l| !l.starts_with('T')) {
            answered[l.as_bytes()[0] as usize] += 1;
            if let Some(n) = l.strip_prefix("E\t") {
                refused[n.parse::<usize>().unwrap()] += 1;
            }
        }
        if differs(yard, &text, &right).is_some() {
            failed += 1;
            if failed <= 3 {
                let t = shorter(yard, &text);
                let right = replay(&t, Session::new);
                let (who, found) = match differs(yard, &t, &right) {
                    Some("yard") => ("yard", ask(yard, &t)),
                    _ => ("the host", replay(&t, Hosted::new)),
                };
                println!("session {sessions} of seed {seed}:\n{t}the Rust:\n{right}{who}:\n{found}");
            }
        }
    }
    print!("seed {seed}: {sessions} sessions, {made} calls;");
    for c in "CXLRE".bytes() {
        print!(" {} {}", c as char, answered[c as usize]);
    }
    print!("; of E");
    for (n, k) in refused.iter().enumerate().filter(|x| *x.1 > 0) {
        print!(" {n}: {k}");
    }
    let crossed = by_notification + by_initialize;
    println!("\n{crossed} sessions compared up to crossed bounds: N {by_notification}, I {by_initialize}");
    let passed = sessions - failed;
    // So many sessions without both kinds would test nothing of crossed bounds.
    if sessions >= 1000 && (by_notification == 0 || by_initialize == 0) {
        println!("no session meets crossed bounds by a notification, or none by an initialise");
        failed += 1;
    }
    if !nothing_standing_proposed() {
        failed += 1;
    }
    println!("{passed} passed, {failed} failed");
    failed == 0
}

fn main() {
    std::panic::set_hook(Box::new(|p| {
        let text = p.to_string();
        if text.contains("the Rust panics") || text.contains("differential.rs") {
            eprintln!("{text}");
        }
    }));
    let words: Vec<String> = std::env::args().skip(1).collect();
    let words: Vec<&str> = words.iter().map(|w| w.as_str()).collect();
    match words[..] {
        ["run", yard, seed, calls] => {
            if !run(yard, seed.parse().expect("a seed"), calls.parse().expect("how many calls")) {
                std::process::exit(1);
            }
        }
        ["answers"] => {
            let text = std::io::read_to_string(std::io::stdin()).expect("the sessions");
            for s in text.split_terminator("---\n") {
                print!("{}---\n", answers(s));
            }
        }
        ["sessions", seed, count] => {
            let mut r = Rng::new(seed.parse().expect("a seed"));
            for _ in 0..count.parse().expect("how many sessions") {
                print!("{}---\n", session(&mut r).0);
            }
        }
        _ => {
            eprintln!("usage: differential run YARD SEED CALLS | answers | sessions SEED COUNT");
            std::process::exit(2);
        }
    }
}
