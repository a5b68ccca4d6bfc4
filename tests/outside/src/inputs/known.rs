//! Tables of up to 512 wires whose first breaking set is known at every order by the way in which they are made, where
//! nobody could look at every set.

use super::searches::{moved, one_share};
use super::tables::{ring, Table};
use crate::model::breaking::{NI, SNI};
use crate::model::records::{Record, MAX_MASKS, MAX_SHARES};
use crate::model::sets;
use crate::random::Random;

pub struct Known {
    pub table: Table,
    pub order: usize,
    /// Under NI and under SNI; none where it holds.
    pub first: [Option<Vec<u16>>; 2],
}

/// Wires of one ring of masks, of which there may be copies: only with one of each, or with two and so on, no mask is
/// left. They break NI, SNI, both or none.
struct Ring {
    size: usize,
    breaks: [bool; 2],
    /// For each wire its copies' numbers in the table.
    places: Vec<Vec<u16>>,
}

/// Up to so many copies of a wire, in one wire in so many.
const MOST_COPIES: usize = 3;
const COPIED_PERCENT: usize = 30;

/// Beside some rings on masks of their own there are wires of masks alone, whose sums depend on nothing, and inner wires
/// without a mask and with one share, which bring no more shares to a set than wires. So a set with no mask left that has
/// no breaking ring in it breaks nothing, and of the sets of a size below which no ring breaks just the breaking rings
/// do, with one copy of each wire.
pub fn known(random: &mut Random, wires: usize) -> Known {
    let shares = random.pick(&[2, 3, 4, 5, 6, 7, 8, 8, 8]);
    let order = if random.chance(80) {
        shares - 1
    } else {
        random.between(1, shares - 1)
    };
    let mut free: Vec<usize> = (0..MAX_MASKS).collect();
    random.shuffle(&mut free);
    let mut rings: Vec<(Ring, Vec<Record>)> = Vec::new();
    let mut filled = 0;
    for _ in 0..random.pick(&[1, 1, 2, 4]) {
        let size = random.between(1, MAX_SHARES - 1).min(shares - 1);
        let ring = any_ring(random, shares, size, &mut free);
        filled += ring.1.len();
        if filled > wires {
            break;
        }
        rings.push(ring);
    }
    let mut records: Vec<Record> = rings.iter().flat_map(|(_, records)| records.clone()).collect();
    let ringed = records.len();
    let loose = free[..free.len().min(20)].to_vec();
    while records.len() < wires {
        let of_masks = records.len() < ringed + 2 * loose.len() && random.chance(50);
        records.push(match of_masks {
            true => Record::mask(random.pick(&loose)).plus(Record::mask(random.pick(&loose))),
            false => one_share(random, shares),
        });
    }
    let mut wires_in_order: Vec<usize> = (0..wires).collect();
    random.shuffle(&mut wires_in_order);
    let mut rings: Vec<Ring> = rings.into_iter().map(|(ring, _)| ring).collect();
    place(&mut rings, &wires_in_order);
    Known {
        first: [NI, SNI].map(|notion| first(&rings, notion, order)),
        table: Table {
            records: wires_in_order.iter().map(|wire| records[*wire]).collect(),
            shares,
            masks: MAX_MASKS,
        },
        order,
    }
}

/// Tells the rings, whose wires came first and one after the other, where these are now.
fn place(rings: &mut [Ring], wires_in_order: &[usize]) {
    let mut places = vec![0; wires_in_order.len()];
    for (place, wire) in wires_in_order.iter().enumerate() {
        places[*wire] = place as u16;
    }
    let copies = rings.iter_mut().flat_map(|ring| &mut ring.places).flatten();
    copies.zip(places).for_each(|(copy, place)| *copy = place);
}

/// A ring and its records, copies side by side. It takes its masks from the free ones.
fn any_ring(random: &mut Random, shares: usize, size: usize, free: &mut Vec<usize>) -> (Ring, Vec<Record>) {
    let outer = random.pick(&[0, 0, 1, size]).min(size);
    let seen = match random.below(4) {
        0 => random.between(0, size),
        _ => random.between(size + 1, shares),
    };
    let breaks = [seen > size, seen > size - outer];
    let masks: Vec<usize> = (0..size)
        .map(|_| free.pop().expect("four rings have 28 masks at most"))
        .collect();
    let mut wires = ring(random, shares, size, seen);
    for (number, wire) in wires.iter_mut().enumerate() {
        *wire = moved(*wire, &masks);
        wire.outer = u8::from(number < outer);
    }
    let copies: Vec<usize> = wires
        .iter()
        .map(|_| {
            if random.chance(COPIED_PERCENT) {
                random.between(2, MOST_COPIES)
            } else {
                1
            }
        })
        .collect();
    let records = wires
        .iter()
        .zip(&copies)
        .flat_map(|(wire, copies)| vec![*wire; *copies]);
    let ring = Ring {
        size,
        breaks,
        places: copies.iter().map(|copies| vec![0; *copies]).collect(),
    };
    (ring, records.collect())
}

/// Of the breaking rings of the least size, one copy of each wire: the choice of least rank.
fn first(rings: &[Ring], notion: usize, order: usize) -> Option<Vec<u16>> {
    let breaking = || {
        rings
            .iter()
            .filter(|ring| ring.breaks[notion - 1] && ring.size <= order)
    };
    let size = breaking().map(|ring| ring.size).min()?;
    let least = breaking().filter(|ring| ring.size == size);
    least.flat_map(choices).min_by_key(|set| sets::rank(set))
}

/// One copy of each wire, in every way, rising.
fn choices(ring: &Ring) -> Vec<Vec<u16>> {
    let mut sets = vec![Vec::new()];
    for copies in &ring.places {
        let with = |set: &Vec<u16>| {
            let one = |copy: &u16| [set.as_slice(), &[*copy]].concat();
            copies.iter().map(one).collect::<Vec<_>>()
        };
        sets = sets.iter().flat_map(with).collect();
    }
    sets.iter_mut().for_each(|set| set.sort_unstable());
    sets
}
