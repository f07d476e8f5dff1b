// Stands in for the one search that is changed in the copy of the Rust source: the first entry of a sorted list with
// this pair, the lowest edge, found by halving as the Rust's own search does.
fn first_match(groups: &[((usize, usize), usize)], pair: &(usize, usize)) -> Result<usize, ()> {
    let i = groups.partition_point(|x| x.0 < *pair);
    if groups.get(i).is_some_and(|x| x.0 == *pair) { Ok(i) } else { Err(()) }
}
