//! A small solver: it decides, follows clauses, asks a propagator, and learns a clause from each conflict (the first
//! unique implication point). It knows nothing of yards, and the propagator only by the shape of sat.rs.
use crate::sat::{CustomPropagator, Lit, SolverManipulator};

#[derive(Default)]
pub struct Counts {
    pub calls: u64,
    pub conflicts: u64,
    pub propagations: u64,
}

/// Of each variable its value, level and activity, and why it is true: the literals that it follows from, none for a
/// decision. `trail` has the literals that are true, in order; `begins[l]` says where level l + 1 begins in it.
#[derive(Default)]
pub struct Solver {
    value: Vec<Option<bool>>,
    level_of: Vec<usize>,
    activity: Vec<f64>,
    watched: Vec<bool>,
    reason: Vec<Vec<Lit>>,
    trail: Vec<Lit>,
    begins: Vec<usize>,
    clauses: Vec<Vec<Lit>>,
    watches: Vec<Vec<usize>>,
    followed: usize,
    notified: usize,
    bump: f64,
    pub counts: Counts,
}

fn var(lit: Lit) -> usize {
    lit.0 as usize / 2
}

unsafe impl SolverManipulator for Solver {
    unsafe fn value(&self, lit: Lit) -> Option<bool> {
        self.value[var(lit)].map(|truth| truth == (lit.0 % 2 == 0))
    }
    unsafe fn add_watch(&mut self, lit: Lit) {
        self.watched[var(lit)] = true;
    }
    /// Takes what a propagator hands on; its reason is fetched by `explain`.
    unsafe fn enqueue(&mut self, lit: Lit) -> bool {
        self.set(lit, vec![])
    }
    unsafe fn decision_level_of_literal(&self, lit: Lit) -> i32 {
        self.level_of[var(lit)] as i32
    }
    unsafe fn is_current_level(&self, lit: Lit) -> bool {
        self.value[var(lit)].is_some() && self.level_of[var(lit)] == self.begins.len()
    }
}

impl Solver {
    /// Variables 0 to n - 1; only those that a propagator watches are decided.
    pub fn new(n: usize) -> Solver {
        Solver {
            value: vec![None; n],
            level_of: vec![0; n],
            activity: vec![0.0; n],
            watched: vec![false; n],
            reason: vec![vec![]; n],
            watches: vec![vec![]; 2 * n],
            bump: 1.0,
            ..Solver::default()
        }
    }

    fn is(&self, lit: Lit) -> Option<bool> {
        unsafe { self.value(lit) }
    }

    /// The variables that are true.
    pub fn true_variables(&self) -> Vec<usize> {
        (0..self.value.len()).filter(|&v| self.value[v] == Some(true)).collect()
    }

    /// Makes a literal true at the current level. Answers whether it is true then.
    fn set(&mut self, lit: Lit, reason: Vec<Lit>) -> bool {
        if self.is(lit).is_none() {
            self.value[var(lit)] = Some(lit.0 % 2 == 0);
            self.level_of[var(lit)] = self.begins.len();
            self.reason[var(lit)] = reason;
            self.trail.push(lit);
        }
        self.is(lit) == Some(true)
    }

    /// The unset variable that conflicts met most of late; its gate is tried open.
    fn decide(&mut self) -> bool {
        let unset = (0..self.value.len()).filter(|&v| self.watched[v] && self.value[v].is_none());
        let best = unset.reduce(|best, v| if self.activity[v] > self.activity[best] { v } else { best });
        if let Some(v) = best {
            self.begins.push(self.trail.len());
            self.set(Lit(2 * v as i32 + 1), vec![]);
        }
        best.is_some()
    }

    /// Follows the clauses, two of whose literals are watched, from every literal that became true. A clause that is
    /// false is answered as a conflict: the negations of its literals.
    fn follow_clauses(&mut self) -> Option<Vec<Lit>> {
        while self.followed < self.trail.len() {
            let falsified = !self.trail[self.followed];
            self.followed += 1;
            let watching = std::mem::take(&mut self.watches[falsified.0 as usize]);
            for (i, &c) in watching.iter().enumerate() {
                if !self.follow(c, falsified) {
                    self.watches[falsified.0 as usize].extend(&watching[i + 1..]);
                    return Some(self.clauses[c].iter().map(|&lit| !lit).collect());
                }
            }
        }
        None
    }

    /// A clause one of whose two watched literals, the first two, became false: another is watched, or the one that is
    /// left is set. Answers false where all are false.
    fn follow(&mut self, c: usize, falsified: Lit) -> bool {
        let mut clause = std::mem::take(&mut self.clauses[c]);
        if clause[0] == falsified {
            clause.swap(0, 1);
        }
        if self.is(clause[0]) != Some(true) {
            if let Some(k) = (2..clause.len()).find(|&k| self.is(clause[k]) != Some(false)) {
                clause.swap(1, k);
            }
        }
        self.watches[clause[1].0 as usize].push(c);
        let mut good = true;
        if clause[1] == falsified {
            good = self.set(clause[0], clause[1..].iter().map(|&lit| !lit).collect());
        }
        self.clauses[c] = clause;
        good
    }

    /// Goes back to a level: the notifications since then are undone, the newest first.
    fn go_back(&mut self, level: usize, propagator: &mut impl CustomPropagator<Solver>) {
        while self.begins.len() > level {
            let begin = self.begins.pop().unwrap();
            while self.trail.len() > begin {
                let lit = self.trail.pop().unwrap();
                if self.notified > self.trail.len() {
                    self.notified -= 1;
                    self.counts.calls += 1;
                    propagator.undo(self, lit);
                }
                self.value[var(lit)] = None;
            }
        }
        self.followed = self.followed.min(self.trail.len());
    }

    /// Notifies what became true; with more to come it is only noted. Answers the list of a conflict.
    fn notify(&mut self, propagator: &mut impl CustomPropagator<Solver>) -> Option<Vec<Lit>> {
        while self.notified < self.trail.len() {
            let lit = self.trail[self.notified];
            self.notified += 1;
            let (before, pending) = (self.trail.len(), self.trail.len() - self.notified);
            self.counts.calls += 1;
            if !propagator.propagate(self, lit, pending as i32) {
                self.counts.conflicts += 1;
                return Some(propagator.calc_reason(self, None, None));
            }
            self.explain(before, propagator);
        }
        None
    }

    /// Fetches the reasons of what was just handed on. At once: a later fetch may go by gates that were opened later,
    /// and then a literal's reason would not stand before it on the trail.
    fn explain(&mut self, from: usize, propagator: &mut impl CustomPropagator<Solver>) {
        for i in from..self.trail.len() {
            let lit = self.trail[i];
            self.counts.calls += 1;
            self.counts.propagations += 1;
            self.reason[var(lit)] = propagator.calc_reason(self, Some(lit), None);
        }
    }

    /// Learns from literals that are true and cannot hold together. Answers false where no decision is to blame: then
    /// nothing is left to search.
    fn learn(&mut self, list: Vec<Lit>, propagator: &mut impl CustomPropagator<Solver>) -> bool {
        let level = list.iter().map(|&lit| self.level_of[var(lit)]).max().unwrap_or(0);
        if level == 0 {
            return false;
        }
        self.go_back(level, propagator); // a list may have no literal of the current level
        let (uip, mut earlier) = self.resolve(list, level);
        earlier.sort_by_key(|&lit| std::cmp::Reverse(self.level_of[var(lit)]));
        let back = earlier.first().map_or(0, |&lit| self.level_of[var(lit)]);
        self.go_back(back, propagator);
        let clause: Vec<Lit> = std::iter::once(!uip).chain(earlier.iter().map(|&lit| !lit)).collect();
        if clause.len() > 1 {
            self.watches[clause[0].0 as usize].push(self.clauses.len());
            self.watches[clause[1].0 as usize].push(self.clauses.len());
            self.clauses.push(clause);
        }
        self.set(!uip, earlier)
    }

    /// Puts reasons in the place of the list's newest literals, until one literal of the level is left: that one, and
    /// the literals of earlier levels. What holds without any decision is left out.
    fn resolve(&mut self, list: Vec<Lit>, level: usize) -> (Lit, Vec<Lit>) {
        let (mut seen, mut earlier, mut open) = (vec![false; self.value.len()], vec![], 0);
        let (mut at, mut next) = (self.trail.len(), list);
        self.bump *= 1.05;
        loop {
            for lit in next {
                if seen[var(lit)] || self.level_of[var(lit)] == 0 {
                    continue;
                }
                seen[var(lit)] = true;
                self.activity[var(lit)] += self.bump;
                if self.level_of[var(lit)] == level {
                    open += 1;
                } else {
                    earlier.push(lit);
                }
            }
            at -= 1;
            while !seen[var(self.trail[at])] {
                at -= 1;
            }
            open -= 1;
            if open == 0 {
                return (self.trail[at], earlier);
            }
            next = self.reason[var(self.trail[at])].clone();
        }
    }

    /// Searches for values of all watched variables that the propagator finds consistent. `take` gets each, and says
    /// whether to go on: then this one is out, by the decisions that led to it.
    pub fn search<P: CustomPropagator<Solver>>(&mut self, propagator: &mut P, mut take: impl FnMut(&Solver) -> bool) {
        self.counts.calls += 1;
        if !propagator.initialize(self) {
            self.counts.conflicts += 1;
            return;
        }
        self.explain(0, propagator);
        loop {
            let mut conflict = self.follow_clauses();
            if conflict.is_none() && self.notified < self.trail.len() {
                conflict = self.notify(propagator);
                if conflict.is_none() {
                    continue;
                }
            }
            if conflict.is_none() && !self.decide() {
                if !take(self) {
                    return;
                }
                conflict = Some(self.begins.iter().map(|&begin| self.trail[begin]).collect());
            }
            if conflict.is_some_and(|list| !self.learn(list, propagator)) {
                return;
            }
        }
    }
}
