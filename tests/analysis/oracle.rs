// What the Rust's own `notify`, `analyze` and `get_reason_lits` answer to blocks of O, P, G and N lines, in the text form of the
// program analysis_cases; a line that starts with `#` is a remark. Blocks that the builder refuses are not for this driver: the Rust's `new` tests less.
//   oracle                          blocks from standard input, the answers to standard output
//   oracle compare BLOCKS ANSWERS   the answers of another program to the blocks of a file, block by block
// The source is included from a copy in which one search is changed (tests/rust/compile says which).
#![allow(dead_code)]
use std::fmt::Write;
use std::panic::{catch_unwind, AssertUnwindSafe};

#[path = "../rust/sat.rs"]
mod sat;

#[path = "../rust/crossed.rs"]
mod crossed;

mod graph_division {
    include!(env!("GRAPH_DIVISION_COPY"));

    include!("../rust/first_match.rs");

    impl GraphDivision {
        pub fn note(&mut self, lit: Lit) {
            self.notify(lit);
        }

        pub fn run_analyze(&mut self) -> bool {
            self.analyze()
        }

        pub fn conflict(&self) -> &[Lit] {
            &self.inconsistency_reason
        }

        // Each literal with a reason, and the reason's list.
        pub fn proposed(&self) -> Vec<(Lit, Vec<Lit>)> {
            let mut all = vec![];
            for (i, reason) in self.propagation_reasons.iter().enumerate() {
                if let Reason::NotPropagated = reason {
                    continue;
                }
                all.push((self.unique_lits[i], self.get_reason_lits(reason)));
            }
            all
        }
    }
}

use graph_division::{GraphDivision, GraphDivisionOptions};
use sat::Lit;

// A block's text split into lines, the `---` left out.
fn blocks(text: &str) -> Vec<Vec<&str>> {
    let mut all = vec![];
    let mut block = vec![];
    let mut open = false;
    for line in text.lines() {
        open = true;
        if line == "---" {
            all.push(std::mem::take(&mut block));
            open = false;
        } else {
            block.push(line);
        }
    }
    if open {
        all.push(block);
    }
    all
}

// The plan as the Rust builds it, the literals to note, and the list of crossed bounds if these cross some.
fn build(block: &[&str]) -> (GraphDivision, Vec<Lit>, Option<Vec<Lit>>) {
    let mut opts = GraphDivisionOptions { disallow_adjacent_same_size_regions: false, allow_extra_walls: false };
    let (mut domains, mut dom_lits, mut weights) = (vec![], vec![], vec![]);
    let (mut edges, mut edge_lits, mut noted) = (vec![], vec![], vec![]);
    for line in block.iter().filter(|l| !l.starts_with('#')) {
        let mut fields = line.split('\t');
        let letter = fields.next().unwrap();
        let f: Vec<i32> = fields.map(|x| x.parse().expect("a number")).collect();
        match letter {
            "O" => {
                opts.disallow_adjacent_same_size_regions = f[0] == 1;
                opts.allow_extra_walls = f[1] == 1;
            }
            "P" => {
                let k = f[1] as usize;
                weights.push(f[0]);
                domains.push(f[2..2 + k].to_vec());
                dom_lits.push(f[2 + k..].iter().map(|&l| Lit(l)).collect::<Vec<_>>());
            }
            "G" => {
                edges.push((f[0] as usize, f[1] as usize));
                edge_lits.push(Lit(f[2]));
            }
            "N" => noted.push(Lit(f[0])),
            _ => panic!("a line of a block: {line}"),
        }
    }
    let crossed = crossed::crossed(&domains, &dom_lits, &noted);
    (GraphDivision::new(&domains, &dom_lits, &weights, &edges, &edge_lits, &opts), noted, crossed)
}

fn line(out: &mut String, letter: &str, first: Option<Lit>, list: &[Lit]) {
    out.push_str(letter);
    for l in first.iter().chain(list) {
        write!(out, "\t{}", l.0).unwrap();
    }
    out.push('\n');
}

// The verdict's line and a line for each proposal. The Rust panics at its test of crossed bounds, where document 02 has a conflict,
// and where the vertex of a lower bound of 0 is looked up, which has no number: refusal 13.
fn answer(block: &[&str]) -> String {
    let (mut d, noted, crossed) = build(block);
    for l in noted {
        d.note(l);
    }
    let mut out = String::new();
    match catch_unwind(AssertUnwindSafe(|| d.run_analyze())) {
        Ok(true) => {
            assert!(crossed.is_none(), "the Rust goes on with crossed bounds\n{}", block.join("\n"));
            line(&mut out, "C", None, &[])
        }
        Ok(false) => line(&mut out, "X", None, d.conflict()),
        Err(e) => {
            let text = match (e.downcast_ref::<String>(), e.downcast_ref::<&str>()) {
                (Some(s), _) => s.as_str(),
                (_, Some(s)) => s,
                _ => "",
            };
            if crossed::is_panic(text) {
                line(&mut out, "X", None, &crossed.expect("a vertex whose bounds cross"));
            } else if text.ends_with(&format!("the index is {}", usize::MAX)) {
                out.push_str("E\t13\n");
            } else {
                panic!("the Rust panics: {text}\n{}", block.join("\n"));
            }
        }
    }
    for (l, list) in d.proposed() {
        line(&mut out, "P", Some(l), &list);
    }
    out
}

// The answers of a text, one for each verdict.
fn answers(text: &str) -> Vec<String> {
    let mut all: Vec<String> = vec![];
    for l in text.lines() {
        if all.is_empty() || !l.starts_with('P') {
            all.push(String::new());
        }
        let last = all.len() - 1;
        all[last].push_str(l);
        all[last].push('\n');
    }
    all
}

fn compare(blocks_file: &str, answers_file: &str) -> bool {
    let text = std::fs::read_to_string(blocks_file).expect("the blocks");
    let given = std::fs::read_to_string(answers_file).expect("the answers");
    let (asked, given) = (blocks(&text), answers(&given));
    let (mut passed, mut failed) = (0, 0);
    for (i, b) in asked.iter().enumerate() {
        let right = answer(b);
        let found = given.get(i).map_or("nothing\n", |s| s.as_str());
        if right == found {
            passed += 1;
            continue;
        }
        failed += 1;
        if failed <= 3 {
            println!("block {i} of {blocks_file}:\n{}\nthe Rust:\n{right}found:\n{found}", b.join("\n"));
        }
    }
    if given.len() > asked.len() {
        println!("{} answers to {} blocks", given.len(), asked.len());
        failed += given.len() - asked.len();
    }
    println!("{passed} passed, {failed} failed");
    failed == 0
}

fn main() {
    let words: Vec<String> = std::env::args().skip(1).collect();
    let words: Vec<&str> = words.iter().map(|w| w.as_str()).collect();
    std::panic::set_hook(Box::new(|p| {
        let text = p.to_string();
        if !text.contains("self.lower_bound[i] <= self.upper_bound[i]") && !text.contains("the index is") {
            eprintln!("{text}");
        }
    }));
    match words[..] {
        [] => {
            let text = std::io::read_to_string(std::io::stdin()).expect("the blocks");
            for b in blocks(&text) {
                print!("{}", answer(&b));
            }
        }
        ["compare", b, a] => {
            if !compare(b, a) {
                std::process::exit(1);
            }
        }
        _ => {
            eprintln!("usage: oracle [compare BLOCKS ANSWERS]");
            std::process::exit(2);
        }
    }
}
