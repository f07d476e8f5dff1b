// shown YARD DIFFERENCES.md: runs each input that docs/DIFFERENCES.md lists on the Rust as it is, and on the program
// `yard`, and compares both answers with what the list says. The cases stand in blocks of code, parted by empty lines:
//   in    lines of a session, parted by ` | `; a `·` is a tab; `LINE × N` is the line N times; what begins with `..`
//         goes on the line before
//   here  what yard writes; `-` is nothing
//   Rust  what the Rust answers: C, X, L and R as yard writes them, `builds` where no call follows, `panics`, with
//         which the case ends. Words after it: `watches` and the literals that add_watch got, `asks` and those that
//         enqueue got, `extra` and what require_extra_constraints answers.
// The Rust is called without document 01's tests. The table is kept as yard keeps it: N marks an unset variable, U
// unsets its own. The last line is 'N passed, M failed', one for each answer of a case.
#![allow(dead_code)]
use std::io::{Read, Write};
use std::panic::{catch_unwind, AssertUnwindSafe};
use std::process::{Command, Stdio};

#[path = "../rust/sat.rs"]
mod sat;

#[path = "../rust/solver.rs"]
mod solver;

mod graph_division {
    include!(env!("GRAPH_DIVISION_COPY"));
}

use graph_division::{GraphDivision, GraphDivisionOptions};
use sat::{CustomPropagator, Lit, SolverManipulator};
use solver::{code, Solver};

// The table, and what else the Rust asks of a solver.
struct Asked {
    solver: Solver,
    watches: Vec<Lit>,
    asks: Vec<Lit>,
}

unsafe impl SolverManipulator for Asked {
    unsafe fn value(&self, lit: Lit) -> Option<bool> {
        self.solver.value(lit)
    }
    unsafe fn add_watch(&mut self, lit: Lit) {
        self.watches.push(lit);
    }
    unsafe fn enqueue(&mut self, lit: Lit) -> bool {
        self.asks.push(lit);
        self.solver.enqueue(lit)
    }
    unsafe fn decision_level_of_literal(&self, lit: Lit) -> i32 {
        self.solver.decision_level_of_literal(lit)
    }
    unsafe fn is_current_level(&self, lit: Lit) -> bool {
        self.solver.is_current_level(lit)
    }
}

fn say(word: &str, lits: &[Lit]) -> String {
    lits.iter().fold(word.to_string(), |s, l| format!("{s}\t{}", l.0))
}

fn numbers(line: &str) -> Vec<i32> {
    line.split('\t').skip(1).map(|x| x.parse().expect("a number")).collect()
}

fn options(lines: &[String]) -> GraphDivisionOptions {
    let f = lines.first().filter(|l| l.starts_with('O')).map_or(vec![0, 0], |l| numbers(l));
    GraphDivisionOptions { disallow_adjacent_same_size_regions: f[0] == 1, allow_extra_walls: f[1] == 1 }
}

// The plan of a session's lines, built by the Rust.
fn build(lines: &[String]) -> GraphDivision {
    let (mut weights, mut domains, mut dom_lits) = (vec![], vec![], vec![]);
    let (mut edges, mut edge_lits) = (vec![], vec![]);
    for l in lines {
        match &l[..1] {
            "P" => {
                let f = numbers(l);
                let k = f[1] as usize;
                weights.push(f[0]);
                domains.push(f[2..2 + k].to_vec());
                dom_lits.push(f[2 + k..].iter().map(|&x| Lit(x)).collect::<Vec<_>>());
            }
            "G" => {
                let f = numbers(l);
                edges.push((f[0] as usize, f[1] as usize));
                edge_lits.push(Lit(f[2]));
            }
            _ => (),
        }
    }
    GraphDivision::new(&domains, &dom_lits, &weights, &edges, &edge_lits, &options(lines))
}

// One call on the Rust, as a line of a session.
fn call(d: &mut GraphDivision, s: &mut Asked, line: &str) -> Option<String> {
    s.solver.handed.clear();
    if line == "I" {
        let ok = d.initialize(s);
        return Some(if ok { say("C", &s.solver.handed) } else { "X".into() });
    }
    if line == "R\t-" {
        return Some(say("R", &d.calc_reason(s, None, None)));
    }
    let f = numbers(line);
    match &line[..1] {
        "V" => {
            s.solver.table[f[0] as usize] = f[1] as u8;
            None
        }
        "N" => {
            let entry = &mut s.solver.table[f[0] as usize / 2];
            if *entry == 0 {
                *entry = code(Lit(f[0]));
            }
            let ok = d.propagate(s, Lit(f[0]), f[1]);
            Some(match (ok, f[1]) {
                (true, 0) => say("C", &s.solver.handed),
                (true, _) => "L".into(),
                _ => "X".into(),
            })
        }
        "U" => {
            d.undo(s, Lit(f[0]));
            s.solver.table[f[0] as usize / 2] = 0;
            Some("C".into())
        }
        // A second literal is the Rust's `extra`.
        _ => Some(say("R", &d.calc_reason(s, Some(Lit(f[0])), f.get(1).map(|&x| Lit(x))))),
    }
}

// What the Rust answers to a session, and the words after that.
fn rust(lines: &[String], words: &[String]) -> Vec<String> {
    let solver = Solver { table: vec![0; 4096], handed: vec![] };
    let mut s = Asked { solver, watches: vec![], asks: vec![] };
    let mut out = vec![];
    let calls: Vec<&String> = lines.iter().filter(|l| !"OPG".contains(&l[..1])).collect();
    match catch_unwind(|| build(lines)) {
        Ok(_) if calls.is_empty() => out.push("builds".to_string()),
        Ok(mut d) => {
            for l in calls {
                match catch_unwind(AssertUnwindSafe(|| call(&mut d, &mut s, l))) {
                    Ok(answer) => out.extend(answer),
                    Err(_) => {
                        out.push("panics".into());
                        break;
                    }
                }
            }
        }
        Err(_) => out.push("panics".into()),
    }
    for w in words {
        match w.split('\t').next().unwrap() {
            "watches" => out.push(say("watches", &s.watches)),
            "asks" => out.push(say("asks", &s.asks)),
            "extra" => {
                let extra = options(lines).require_extra_constraints();
                out.push(format!("extra\t{}", if extra { "yes" } else { "no" }));
            }
            _ => (),
        }
    }
    out
}

fn yard(program: &str, lines: &[String]) -> Vec<String> {
    let text: String = lines.iter().map(|l| format!("{l}\n")).collect();
    let mut yard = Command::new(program);
    let mut child = yard.stdin(Stdio::piped()).stdout(Stdio::piped()).spawn().expect("the program yard");
    child.stdin.take().unwrap().write_all(text.as_bytes()).expect("the session");
    let mut out = String::new();
    child.stdout.take().unwrap().read_to_string(&mut out).expect("the answers");
    child.wait().expect("the program's end");
    if out.is_empty() { vec!["-".into()] } else { out.lines().map(str::to_string).collect() }
}

// The lines of one key of a case.
fn field(case: &[&str], key: &str) -> Vec<String> {
    let mut out: Vec<String> = vec![];
    for l in case.iter().filter_map(|l| l.strip_prefix(key)) {
        for part in l.split(" | ").map(|p| p.trim().replace('·', "\t")) {
            match part.split_once(" × ") {
                _ if part.starts_with("..") => out.last_mut().expect("a line to go on").push_str(&part[2..]),
                Some((line, n)) => {
                    let times = n.parse().expect("how many times");
                    out.extend(std::iter::repeat_n(line.to_string(), times));
                }
                None => out.push(part),
            }
        }
    }
    out
}

fn main() {
    std::panic::set_hook(Box::new(|p| {
        if p.to_string().contains("shown.rs") {
            eprintln!("{p}");
        }
    }));
    let args: Vec<String> = std::env::args().skip(1).collect();
    let text = std::fs::read_to_string(&args[1]).expect("the list of differences");
    // The lines of code, with an empty one after each block.
    let code = text.split("```").skip(1).step_by(2).flat_map(|block| block.lines().chain([""]));
    let lines: Vec<&str> = code.collect();
    let (mut passed, mut failed) = (0, 0);
    for case in lines.split(|l| l.is_empty()) {
        let input = field(case, "in ");
        if input.is_empty() {
            continue;
        }
        let (here, there) = (field(case, "here "), field(case, "Rust "));
        let found = [yard(&args[0], &input), rust(&input, &there)];
        for ((who, said), found) in [("yard", &here), ("the Rust", &there)].into_iter().zip(found) {
            if *said == found {
                passed += 1;
            } else {
                failed += 1;
                let show = |x: &[String]| x.join(" | ").replace('\t', "·");
                println!("{}\n  {who}: said {}, found {}", show(&input), show(said), show(&found));
            }
        }
    }
    println!("{passed} passed, {failed} failed");
}
