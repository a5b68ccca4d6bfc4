//! The revolving door: counts, the list of sets as the scope defines it, ranks for lists too long to write down, jobs.

use super::records::MAX_WIRES;
use std::sync::OnceLock;

pub const MAX_SIZE: usize = 7;
pub const MAX_JOBS: u64 = 65_536;

/// How many sets of `size` out of `wires` wires there are, worked out once for all wires and sizes.
pub fn count(wires: usize, size: usize) -> u64 {
    static COUNTS: OnceLock<Vec<[u64; MAX_SIZE + 1]>> = OnceLock::new();
    let counts = COUNTS.get_or_init(|| {
        let row = |wires| std::array::from_fn(|size| count_by_product(wires, size));
        (0..=MAX_WIRES).map(row).collect()
    });
    counts[wires][size]
}

/// n (n - 1) ... (n - k + 1) / k!, each division exact; 0 as soon as a factor is 0.
fn count_by_product(wires: usize, size: usize) -> u64 {
    let wires = wires as u128;
    let sets = (0..size as u128).fold(1, |sets, taken| sets * wires.saturating_sub(taken) / (taken + 1));
    u64::try_from(sets).expect("512 wires in sevens are below 2^64")
}

/// The list itself: the sets without wire n - 1, then those with it in the reverse order of their other wires.
pub fn list(wires: usize, size: usize) -> Vec<Vec<u16>> {
    if size == 0 {
        return vec![Vec::new()];
    }
    if wires == 0 {
        return Vec::new();
    }
    let last = wires - 1;
    let mut sets = list(last, size);
    for mut set in list(last, size - 1).into_iter().rev() {
        set.push(last as u16);
        sets.push(set);
    }
    sets
}

/// The set at a rank below the count, found by asking the definition at each wire from the last down: is it in?
pub fn from_rank(wires: usize, size: usize, rank: u64) -> Vec<u16> {
    let (mut size, mut rank, mut set) = (size, rank, Vec::new());
    for wire in (0..wires).rev() {
        let without = count(wire, size);
        if size > 0 && rank >= without {
            set.push(wire as u16);
            size -= 1;
            rank = count(wire, size) - 1 - (rank - without);
        }
    }
    set.reverse();
    set
}

/// The rank of a rising set. With wire w the largest of k, the list for w + 1 wires ends in the sets with w, backwards;
/// so the rank is the last rank there less the rank of the rest, and the signs change from wire to wire.
pub fn rank(set: &[u16]) -> u64 {
    let mut rank: i128 = 0;
    for (place, wire) in set.iter().enumerate() {
        let last_rank = i128::from(count(usize::from(*wire) + 1, place + 1)) - 1;
        rank = last_rank - rank;
    }
    u64::try_from(rank).expect("a rank is no less than 0")
}

/// All rising sets of `size` out of `wires` wires, in the order of a dictionary, shown one after the other.
pub fn each(wires: usize, size: usize, mut show: impl FnMut(&[u16])) {
    if size > wires {
        return;
    }
    let mut set: Vec<u16> = (0..size as u16).collect();
    loop {
        show(&set);
        let can_rise = |place: &usize| usize::from(set[*place]) < wires - size + place;
        let Some(place) = (0..size).rev().find(can_rise) else {
            return;
        };
        set[place] += 1;
        for later in place + 1..size {
            set[later] = set[later - 1] + 1;
        }
    }
}

/// From and to of a job.
pub fn job(wires: usize, size: usize, job: u64, jobs: u64) -> [u64; 2] {
    let sets = u128::from(count(wires, size));
    [job, job + 1].map(|job| (u128::from(job) * sets / u128::from(jobs)) as u64)
}
