//! divide: divides a yard by a search of its own (search.rs), with the divider as its propagator (propagator.rs). It
//! reads a plan in yard's lines from standard input, and prints a valid division, or every one, and what it took.
//!
//! Usage: divide [--all] < PLAN
//!
//! The exit status is 0 where a division was found, 1 where there is none, and another where the plan cannot be read or
//! built.
//!
//! To build it, after `./build-c target/c`:
//!
//!     rustc -O --edition 2021 examples/rust/divide.rs -L target/c -l static=zuntjev -o target/c/divide
#[path = "propagator.rs"]
mod graph_division;
mod sat;
mod search;

use graph_division::{GraphDivision, GraphDivisionOptions};
use sat::Lit;
use std::io::Read;

#[derive(Default)]
struct Plan {
    vertex_weights: Vec<i32>,
    domains: Vec<Vec<i32>>,
    dom_lits: Vec<Vec<Lit>>,
    edges: Vec<(usize, usize)>,
    edge_lits: Vec<Lit>,
    opts: GraphDivisionOptions,
}

impl Plan {
    /// Takes a line; None if it is malformed. A line of a call is passed over.
    fn read_line(&mut self, line: &str) -> Option<()> {
        let (letter, rest) = line.split_once('\t').unwrap_or((line, ""));
        if ["V", "I", "N", "U", "R"].contains(&letter) {
            return Some(());
        }
        let numbers: Vec<i32> = rest.split('\t').map(|field| field.parse().ok()).collect::<Option<_>>()?;
        match (letter, &numbers[..]) {
            ("O", &[same_size @ 0..=1, extra_walls @ 0..=1]) => {
                self.opts.disallow_adjacent_same_size_regions = same_size == 1;
                self.opts.allow_extra_walls = extra_walls == 1;
            }
            ("P", [weight, k, sizes_and_lits @ ..]) if (0..=sizes_and_lits.len() as i32).contains(k) => {
                let (sizes, lits) = sizes_and_lits.split_at(*k as usize);
                self.vertex_weights.push(*weight);
                self.domains.push(sizes.to_vec());
                self.dom_lits.push(lits.iter().map(|&lit| Lit(lit)).collect());
            }
            ("G", &[u, v, lit]) => {
                self.edges.push((u.try_into().unwrap_or(usize::MAX), v.try_into().unwrap_or(usize::MAX)));
                self.edge_lits.push(Lit(lit));
            }
            _ => return None,
        }
        Some(())
    }

    fn variables(&self) -> usize {
        let lits = self.dom_lits.iter().flatten().chain(&self.edge_lits);
        lits.map(|lit| lit.0 as usize / 2 + 1).max().unwrap_or(0)
    }

    /// The groups, a line each, in order of their lowest pen; then the literals that hold, of the plan's variables.
    fn print(&self, true_variables: &[usize]) {
        let holds = |lit: Lit| true_variables.contains(&(lit.0 as usize / 2)) == (lit.0 % 2 == 0);
        let mut region: Vec<usize> = (0..self.domains.len()).collect();
        for (&(u, v), &lit) in self.edges.iter().zip(&self.edge_lits) {
            if !holds(lit) {
                let (low, high) = (region[u].min(region[v]), region[u].max(region[v]));
                region.iter_mut().filter(|r| **r == high).for_each(|r| *r = low);
            }
        }
        for low in 0..region.len() {
            let pens: Vec<usize> = (0..region.len()).filter(|&v| region[v] == low).collect();
            if !pens.is_empty() {
                let heads: i32 = pens.iter().map(|&v| self.vertex_weights[v]).sum();
                println!("{heads} heads: pens {}", pens.iter().map(|v| v.to_string()).collect::<Vec<_>>().join(" "));
            }
        }
        let bounded = self.domains.iter().zip(&self.dom_lits).filter(|(domain, _)| !domain.is_empty());
        let lits = bounded.flat_map(|(_, lits)| lits).chain(&self.edge_lits);
        let mut true_lits: Vec<i32> = lits.map(|&lit| if holds(lit) { lit.0 } else { lit.0 ^ 1 }).collect();
        true_lits.sort_unstable();
        true_lits.dedup();
        println!("literals: {}", true_lits.iter().map(|lit| lit.to_string()).collect::<Vec<_>>().join(" "));
    }
}

fn stop(message: &str) -> ! {
    eprintln!("divide: {message}");
    std::process::exit(2);
}

/// A refusal, of the plan or of a call, panics: only its message is printed.
fn say_refusals_plainly() {
    std::panic::set_hook(Box::new(|panic| {
        let message = panic.payload().downcast_ref::<String>().cloned();
        eprintln!("divide: {}", message.unwrap_or_else(|| panic.to_string()));
    }));
}

fn main() {
    say_refusals_plainly();
    let arguments: Vec<String> = std::env::args().skip(1).collect();
    let every = arguments == ["--all"];
    if !every && !arguments.is_empty() {
        stop("usage: divide [--all] < PLAN");
    }
    let (mut text, mut plan) = (String::new(), Plan::default());
    if std::io::stdin().read_to_string(&mut text).is_err() {
        stop("standard input cannot be read");
    }
    for (i, line) in text.lines().enumerate() {
        if plan.read_line(line).is_none() {
            stop(&format!("line {} is malformed", i + 1));
        }
    }
    if plan.opts.require_extra_constraints() {
        stop("an option is on: it is not promised then that what is found is a division");
    }
    let Plan { domains, dom_lits, vertex_weights, edges, edge_lits, opts } = &plan;
    let mut propagator = GraphDivision::new(domains, dom_lits, vertex_weights, edges, edge_lits, opts);
    let (mut solver, mut found) = (search::Solver::new(plan.variables()), 0);
    solver.search(&mut propagator, |solver| {
        plan.print(&solver.true_variables());
        found += 1;
        every
    });
    let (plural, all, n) = (if found == 1 { "" } else { "s" }, if every { " in all" } else { "" }, &solver.counts);
    println!(
        "{found} valid division{plural}{all}: {} calls, {} conflicts, {} propagations",
        n.calls, n.conflicts, n.propagations
    );
    std::process::exit(i32::from(found == 0));
}
