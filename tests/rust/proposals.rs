// Stands in for the test of `register_propagation` in the copy of the Rust source, whether the proposed literal is
// notified already. It answers what the Rust's test does, and counts the proposals: all, those where the test is true,
// so that the Rust returns early, and those where it would be true of the literal's negation.
use std::sync::atomic::{AtomicUsize, Ordering::Relaxed};

static PROPOSED: AtomicUsize = AtomicUsize::new(0);
static OF_NOTIFIED: AtomicUsize = AtomicUsize::new(0);
static OF_NEGATION: AtomicUsize = AtomicUsize::new(0);

fn counted_test(unique_lits: &[Lit], already_notified: &[bool], lit_id: usize) -> bool {
    let negation_id = unique_lits.binary_search(&!unique_lits[lit_id]).unwrap();
    PROPOSED.fetch_add(1, Relaxed);
    OF_NOTIFIED.fetch_add(already_notified[lit_id].into(), Relaxed);
    OF_NEGATION.fetch_add(already_notified[negation_id].into(), Relaxed);
    already_notified[lit_id]
}

// The three counts since they were last asked for.
pub fn counts() -> [usize; 3] {
    [&PROPOSED, &OF_NOTIFIED, &OF_NEGATION].map(|n| n.swap(0, Relaxed))
}
