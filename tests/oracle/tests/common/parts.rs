//! Sets of a few times, and the parts of each set.

/// Every set of so many things, each by the bits of a number, with every part of it that lacks something.
pub fn sets_and_parts(many: usize) -> impl Iterator<Item = (usize, usize)> {
    let is_part = |set: usize, part: usize| part & set == part;
    (0..1 << many)
        .flat_map(move |set| (0..set).filter(move |&part| is_part(set, part)).map(move |part| (set, part)))
}

/// Of these times, those of the set.
pub fn of_set(times: &[u64], set: usize) -> Vec<u64> {
    times.iter().enumerate().filter(|(i, _)| set >> i & 1 == 1).map(|(_, t)| *t).collect()
}
