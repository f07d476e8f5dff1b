// Document 02's conflict of crossed bounds, where the Rust panics: its list, found from the literals that stand and from
// nothing else. Size literal j of a vertex says "at least entry j + 1" of the domain, its negation "at most entry j". So
// the highest size literal that stands gives the lower bound, the lowest whose negation stands gives the upper bound, and
// the bounds cross where the first is not below the second. The list has these two of the lowest such vertex.
use crate::sat::Lit;

pub fn crossed(domains: &[Vec<i32>], dom_lits: &[Vec<Lit>], standing: &[Lit]) -> Option<Vec<Lit>> {
    let constrained = domains.iter().zip(dom_lits).filter(|(domain, _)| !domain.is_empty());
    constrained.map(|(_, lits)| lits).find_map(|lits| {
        let lower = lits.iter().rposition(|l| standing.contains(l))?;
        let upper = lits.iter().position(|l| standing.contains(&!*l))?;
        (upper <= lower).then(|| vec![lits[lower], !lits[upper]])
    })
}

// Whether this is the text of the Rust's panic at crossed bounds.
pub fn is_panic(text: &str) -> bool {
    text == "assertion failed: self.lower_bound[i] <= self.upper_bound[i]"
}
