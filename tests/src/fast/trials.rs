//! How many sets of keepers a hunt in dictionary order tries, counted without the hunt.

/// How many sets of `size` there are of so many keepers.
pub fn sets(of: usize, size: usize) -> u32 {
    (0..size).fold(1, |sets, k| sets * (of - k) / (k + 1)) as u32
}

/// How many sets of `size` usable keepers are tried up to the first of which all agree. Both lists rise.
///
/// Where a keeper does not agree, all sets that go on with it come before the one looked for. Such a set
/// has one keeper fewer to take, of those that come after.
pub fn trials(usable: &[u16], agreed: &[u16], size: usize) -> u32 {
    let (mut trials, mut taken) = (1, 0);
    for (i, &keeper) in usable.iter().enumerate() {
        if taken == size {
            break;
        }
        if keeper == agreed[taken] {
            taken += 1;
        } else {
            trials += sets(usable.len() - i - 1, size - taken - 1);
        }
    }
    trials
}
