// generate SEED COUNT: prints COUNT random blocks of O, P, G and N lines, the same for the same seed. Every block is one that the
// builder accepts, every noted literal is one of its plan, and no literal is noted twice or together with its negation.
use std::io::Write;

pub struct Rng(u64);

impl Rng {
    pub fn new(seed: u64) -> Rng {
        let mut r = Rng(seed.wrapping_mul(0x9e3779b97f4a7c15) ^ 0x2545f4914f6cdd1d);
        for _ in 0..8 {
            r.next();
        }
        r
    }

    // splitmix64
    pub fn next(&mut self) -> u64 {
        self.0 = self.0.wrapping_add(0x9e3779b97f4a7c15);
        let mut z = self.0;
        z = (z ^ (z >> 30)).wrapping_mul(0xbf58476d1ce4e5b9);
        z = (z ^ (z >> 27)).wrapping_mul(0x94d049bb133111eb);
        z ^ (z >> 31)
    }

    pub fn below(&mut self, n: usize) -> usize {
        (self.next() % n as u64) as usize
    }

    pub fn chance(&mut self, percent: usize) -> bool {
        self.below(100) < percent
    }
}

// How a block is made.
struct Style {
    // Most vertices, edges and sizes of a domain.
    vertices: usize,
    edges: usize,
    sizes: usize,
    // Weights are below this, sizes near the weights of regions.
    weights: usize,
    // Whether the literals get the truth values of one division, or any.
    divided: bool,
    // Whether the last vertex is heavy and without a domain, and its edges mostly undecided: then the other vertices' bounds, which
    // each has for itself, are seldom too much for a potential region, and the later steps are reached.
    heavy: bool,
    // Percentages: an edge that is open in the division, a slot that shares a variable, an empty domain, a domain of one size.
    open: usize,
    shared: usize,
    empty: usize,
    fixed: usize,
}

fn style(r: &mut Rng) -> Style {
    let heavy = r.chance(30);
    let divided = !heavy && r.chance(75);
    let open = [0, 20, 35, 50, 80][r.below(5)];
    let shared = [0, 0, 5, 15, 40][r.below(5)];
    let empty = [0, 10, 30, 60][r.below(4)];
    let fixed = if heavy { [0, 40, 90, 100][r.below(4)] } else { [0, 10, 40, 90][r.below(4)] };
    let kind = r.below(200);
    let (vertices, edges, sizes) = match kind {
        0 => (64, 128, 32),
        1 => (64, 128, 6),
        2..=6 => (24, 40, 6),
        7..=15 => (12, 24, 8),
        16..=90 => (8, 14, 5),
        91..=150 => (5, 9, 4),
        _ => (4, 5, 3),
    };
    let weights = match r.below(40) {
        0 => 1000001,
        1..=5 => 2,
        6..=15 => 8,
        _ => 4,
    };
    Style { vertices, edges, sizes, weights: if heavy { 3 } else { weights }, divided, heavy, open, shared, empty, fixed }
}

// The variables given so far: the number and the truth value of each.
struct Vars {
    numbers: Vec<usize>,
    values: Vec<bool>,
    taken: Vec<bool>,
    most: usize,
}

impl Vars {
    // A literal that holds exactly if `holds`: of a new variable, or of one that is there.
    fn literal(&mut self, r: &mut Rng, shared: usize, holds: bool) -> usize {
        let old = !self.numbers.is_empty() && (r.chance(shared) || self.numbers.len() == self.most);
        let k = if old {
            r.below(self.numbers.len())
        } else {
            let mut v = r.below(self.most);
            while self.taken[v] {
                v = (v + 1) % self.most;
            }
            self.taken[v] = true;
            self.numbers.push(v);
            self.values.push(r.chance(50));
            self.numbers.len() - 1
        };
        2 * self.numbers[k] + (self.values[k] != holds) as usize
    }
}

fn root(up: &mut [usize], mut v: usize) -> usize {
    while up[v] != v {
        v = up[v];
    }
    v
}

// A strictly rising list of at most `most` sizes: with `size` in it if `with`, and others near it.
fn domain(r: &mut Rng, most: usize, size: usize, with: bool, spread: usize) -> Vec<usize> {
    let mut d = vec![];
    if with && size <= 1000000 {
        d.push(size);
    }
    for _ in 0..r.below(most + 1) {
        let low = size.saturating_sub(spread);
        d.push((low + r.below(2 * spread + 1)).min(1000000));
    }
    d.sort();
    d.dedup();
    while d.len() > most {
        let k = r.below(d.len());
        d.remove(k);
    }
    d
}

pub fn block(r: &mut Rng, out: &mut impl Write) {
    let s = style(r);
    let n = if s.vertices == 64 { 64 - r.below(2) * r.below(40) } else { r.below(s.vertices + 1) };
    let m = if n == 0 { 0 } else if s.edges == 128 { 128 - r.below(2) * r.below(90) } else { r.below(s.edges + 1) };

    let top = s.weights - 1;
    let mut weights: Vec<usize> = (0..n)
        .map(|_| match r.below(8) {
            0 => 0,
            1 => top,
            2..=6 if s.heavy => 0,
            _ => r.below(top + 1),
        })
        .collect();
    if s.heavy && n > 0 {
        weights[n - 1] = 5 + r.below(60);
    }

    let mut ends: Vec<(usize, usize)> = vec![];
    for g in 0..m {
        let e = match r.below(12) {
            0 => {
                let u = r.below(n);
                (u, u)
            }
            1 | 2 if g > 0 => {
                let (u, v) = ends[r.below(g)];
                if r.chance(50) { (v, u) } else { (u, v) }
            }
            3 | 4 if s.heavy => (r.below(n), n - 1),
            3..=7 if n > 1 => {
                let u = r.below(n - 1);
                if r.chance(50) { (u, u + 1) } else { (u + 1, u) }
            }
            _ => (r.below(n), r.below(n)),
        };
        ends.push(e);
    }

    // One division: edges opened, every edge inside a region open.
    let mut up: Vec<usize> = (0..n).collect();
    for &(u, v) in &ends {
        if r.chance(s.open) {
            let (a, b) = (root(&mut up, u), root(&mut up, v));
            up[a] = b;
        }
    }
    let region: Vec<usize> = (0..n).map(|v| root(&mut up, v)).collect();
    let mut heavy = vec![0; n];
    for v in 0..n {
        heavy[region[v]] += weights[v];
    }

    let mut vars = Vars {
        numbers: vec![],
        values: vec![],
        taken: vec![false; 4096],
        most: if r.chance(5) { 3 } else if r.chance(30) { 4096 } else { 2200 },
    };
    if s.vertices <= 8 && r.chance(60) {
        vars.most = vars.most.min(64);
    }

    if r.chance(70) {
        let same_size = r.chance(if s.heavy { 80 } else { 50 });
        writeln!(out, "O\t{}\t{}", same_size as usize, r.below(2)).unwrap();
    }
    let edges_first = r.chance(5);
    let common = if r.chance(40) { Some(r.below(5)) } else { None };
    let mut lines: Vec<String> = vec![];
    for v in 0..n {
        let size = if s.heavy { common.unwrap_or(r.below(8)) } else { heavy[region[v]] };
        let spread = 1 + r.below(2 * s.weights.min(600000));
        let with = (s.divided || s.heavy) && !r.chance(2) || r.chance(60);
        let most = if r.chance(s.fixed) { 1 } else { s.sizes };
        let bare = r.chance(s.empty) || s.heavy && v == n - 1;
        let d = if bare { vec![] } else { domain(r, most, size, with, spread) };
        let mut line = format!("P\t{}\t{}", weights[v], d.len());
        for x in &d {
            line += &format!("\t{x}");
        }
        for j in 1..d.len() {
            let holds = if s.divided || s.heavy { size >= d[j] } else { r.chance(50) };
            line += &format!("\t{}", vars.literal(r, s.shared, holds));
        }
        if d.is_empty() && r.chance(10) {
            for _ in 0..r.below(4) {
                line += &format!("\t{}", r.below(8192));
            }
        }
        lines.push(line);
    }
    let mut gates: Vec<String> = vec![];
    let mut undecided = vec![];
    for &(u, v) in &ends {
        let shut = if s.divided || s.heavy { region[u] != region[v] } else { r.chance(50) };
        let lit = vars.literal(r, s.shared, shut);
        if s.heavy && (u == n - 1 || v == n - 1) && r.chance(85) {
            undecided.push(lit / 2);
        }
        gates.push(format!("G\t{u}\t{v}\t{lit}"));
    }
    let (a, b) = if edges_first { (&gates, &lines) } else { (&lines, &gates) };
    for l in a.iter().chain(b) {
        writeln!(out, "{l}").unwrap();
    }

    // Some of the variables, in any order, with their truth values; now and then one with the other.
    let mut order: Vec<usize> = (0..vars.numbers.len()).collect();
    for i in (1..order.len()).rev() {
        order.swap(i, r.below(i + 1));
    }
    let part = [0, 15, 40, 60, 85, 100][r.below(6)];
    let wrong = if s.divided || s.heavy { [0, 0, 0, 2, 10][r.below(5)] } else { 10 };
    for k in order {
        if r.chance(part) && !undecided.contains(&vars.numbers[k]) {
            let holds = vars.values[k] != r.chance(wrong);
            writeln!(out, "N\t{}\t1", 2 * vars.numbers[k] + !holds as usize).unwrap();
        }
    }
    writeln!(out, "---").unwrap();
}

fn main() {
    let words: Vec<u64> = std::env::args().skip(1).map(|w| w.parse().expect("a number")).collect();
    let [seed, count] = words[..] else {
        eprintln!("usage: generate SEED COUNT");
        std::process::exit(2);
    };
    let mut r = Rng::new(seed);
    let mut out = std::io::BufWriter::new(std::io::stdout());
    for _ in 0..count {
        block(&mut r, &mut out);
    }
}
