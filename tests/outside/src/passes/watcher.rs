//! What a watcher sees, by brute force over inputs, mask settings and choices of shares. No breaking set and no sum of
//! records has a place here: the scope's statement on the verdict's answer is tried out word for word.

use crate::engine;
use crate::inputs::calls::TableCall;
use crate::inputs::tables::{circuit, loose, Table};
use crate::model::breaking::{NI, SNI};
use crate::model::sets;
use crate::random::Random;
use crate::reply::Reply;
use crate::tally::Tally;

const TABLES: usize = 20_000;
const MOST_WIRES: usize = 7;

/// The operands that leak by the set that a verdict shows, for NI and for SNI.
const LEAKS: [[&str; 3]; 2] = [
    ["NI by a", "NI by b", "NI by both"],
    ["SNI by a", "SNI by b", "SNI by both"],
];

/// For every input, shares of a in the low bits and of b above them, and every mask setting: bit w for wire w's value.
struct Values {
    shares: usize,
    of_inputs: Vec<Vec<u16>>,
}

pub fn run(random: &mut Random, tally: &mut Tally) {
    let mut counts = [[0; 2]; 2];
    tally.expect("  leaks", &LEAKS.concat());
    for _ in 0..TABLES {
        let table = any_table(random);
        let call = TableCall::new(random, &table);
        let values = values(&table);
        for notion in [NI, SNI] {
            for order in 1..table.shares {
                let holds = compare(tally, &call, &table, &values, [notion, order]);
                counts[notion - 1][usize::from(holds)] += 1;
            }
            let set = any_set(random, table.records.len());
            compare_dependence(tally, &call, &table, &values, notion, &set);
        }
    }
    let [[ni_broken, ni_holds], [sni_broken, sni_holds]] = counts;
    let answers = format!("NI holds {ni_holds}, broken {ni_broken}, SNI holds {sni_holds}, broken {sni_broken}");
    tally.say(format!("watcher         {TABLES} tables by brute force: {answers}"));
    if counts.concat().contains(&0) {
        tally.differs(|| String::from("watcher: an answer never came"));
    }
}

/// Circuits mostly hold under NI, loose wires are mostly broken.
fn any_table(random: &mut Random) -> Table {
    let (shares, masks) = (random.between(2, 3), random.between(0, 3));
    let wires = random.between(1, MOST_WIRES);
    match random.chance(60) {
        true => circuit(random, shares, masks, wires),
        false => loose(random, shares, masks, wires),
    }
}

/// Whether the notion holds by brute force, once the verdicts of both the engine's entries are compared with it.
fn compare(tally: &mut Tally, call: &TableCall, table: &Table, values: &Values, [notion, order]: [usize; 2]) -> bool {
    let mut holds = true;
    for size in 0..=order {
        sets::each(table.records.len(), size, |set| {
            holds &= admits_choice(table, values, set, notion)
        });
    }
    for (entry, ask) in engine::VERDICTS {
        let reply = ask(&call.table, [call.shares, call.masks, notion, order, order]);
        let right = match (reply.status, reply.numbers[0]) {
            (0, Some(1)) => holds,
            (0, Some(0)) => {
                is_set(&reply.written, table, order)
                    && !admits_choice(table, values, &reply.written, notion)
                    && operands_are_right(tally, call, table, values, notion, &reply.written)
            }
            _ => false,
        };
        if !right || !reply.rest_kept {
            tally.differs(|| {
                format!(
                    "watcher: {entry:?}, holds is {holds}, notion {notion} order {order} {}\n    engine: {reply}",
                    call.show()
                )
            });
        }
    }
    holds
}

/// Of a and of b, whether the operand leaks by a set that breaks the notion while no smaller one does: no choice of
/// shares will do, though all shares of the other operand may be chosen.
fn leaks(table: &Table, values: &Values, set: &[u16], notion: usize) -> [bool; 2] {
    let (few, all) = (allowed(table, set, notion), table.shares);
    [!admits(values, set, [few, all]), !admits(values, set, [all, few])]
}

/// The same for a table of few wires and masks.
pub fn leaking(table: &Table, set: &[u16], notion: usize) -> [bool; 2] {
    leaks(table, &values(table), set, notion)
}

/// Whether the engine's counts for the set shown exceed what is allowed for the operands that leak, and for no other.
fn operands_are_right(
    tally: &mut Tally,
    call: &TableCall,
    table: &Table,
    values: &Values,
    notion: usize,
    set: &[u16],
) -> bool {
    let leaks = leaks(table, values, set, notion);
    let kind = match leaks {
        [true, false] => 0,
        [false, true] => 1,
        [true, true] => 2,
        [false, false] => return false,
    };
    tally.occurs("  leaks", LEAKS[notion - 1][kind]);
    let reply = engine::set_dependence(&call.table, [call.shares, call.masks, notion], set);
    match reply.numbers {
        [Some(of_a), Some(of_b), Some(allowed), Some(0), None, None] => {
            reply.rest_kept && leaks == [of_a, of_b].map(|count| count > allowed)
        }
        _ => false,
    }
}

/// Any set's counts and mask by values alone: the sum depends on a share, or on a mask, where the wires' values add up
/// to another bit once that one is changed, under some input and mask setting.
fn compare_dependence(tally: &mut Tally, call: &TableCall, table: &Table, values: &Values, notion: usize, set: &[u16]) {
    let bit = |input: usize, setting: usize| {
        let bits = set.iter().map(|wire| values.of_inputs[input][setting] >> wire & 1);
        bits.sum::<u16>() % 2
    };
    let (inputs, settings) = (values.of_inputs.len(), values.of_inputs[0].len());
    let some = |differs: &dyn Fn(usize, usize) -> bool| {
        (0..inputs).any(|input| (0..settings).any(|setting| differs(input, setting)))
    };
    let share = |place: &usize| some(&|input, setting| bit(input, setting) != bit(input ^ 1 << place, setting));
    let mask = |place: usize| some(&|input, setting| bit(input, setting) != bit(input, setting ^ 1 << place));
    let of_a = (0..table.shares).filter(share).count();
    let of_b = (table.shares..2 * table.shares).filter(share).count();
    let masked = (0..table.masks).any(mask);
    let counts = [of_a, of_b, allowed(table, set, notion), usize::from(masked)];
    let wanted = Reply::answered(&counts.map(|count| count as u64), Vec::new());
    let reply = engine::set_dependence(&call.table, [call.shares, call.masks, notion], set);
    if reply != wanted {
        tally.differs(|| {
            let input = format!("notion {notion} set {set:?} {}", call.show());
            format!("watcher: dependence {input}\n    by values: {wanted}\n    engine: {reply}")
        });
    }
}

fn any_set(random: &mut Random, wires: usize) -> Vec<u16> {
    (0..wires as u16).filter(|_| random.chance(50)).collect()
}

fn is_set(set: &[u16], table: &Table, order: usize) -> bool {
    let rising = set.windows(2).all(|pair| pair[0] < pair[1]);
    rising && set.len() <= order && set.iter().all(|wire| usize::from(*wire) < table.records.len())
}

fn values(table: &Table) -> Values {
    let of_setting = |input: usize, setting: u64| {
        let (a, b) = (input & ((1 << table.shares) - 1), input >> table.shares);
        let bits = table
            .records
            .iter()
            .map(|record| u16::from(record.value(a as u8, b as u8, setting)));
        bits.enumerate().map(|(wire, bit)| bit << wire).sum()
    };
    let of_input = |input: usize| {
        (0..1 << table.masks)
            .map(|setting| of_setting(input, setting))
            .collect()
    };
    Values {
        shares: table.shares,
        of_inputs: (0..1 << (2 * table.shares)).map(of_input).collect(),
    }
}

/// Whether shares of a and of b can be chosen, of each no more than the set has wires (for SNI, inner wires), so that
/// inputs that agree on them give each pattern from equally many mask settings.
fn admits_choice(table: &Table, values: &Values, set: &[u16], notion: usize) -> bool {
    admits(values, set, [allowed(table, set, notion); 2])
}

fn allowed(table: &Table, set: &[u16], notion: usize) -> usize {
    let inner = set
        .iter()
        .filter(|wire| table.records[usize::from(**wire)].outer == 0)
        .count();
    if notion == SNI {
        inner
    } else {
        set.len()
    }
}

/// Likewise, with at most so many shares of a and so many of b.
fn admits(values: &Values, set: &[u16], most: [usize; 2]) -> bool {
    let patterns: Vec<Vec<u32>> = values
        .of_inputs
        .iter()
        .map(|settings| count_patterns(settings, set))
        .collect();
    let choices = |most| (0..1usize << values.shares).filter(move |choice| choice.count_ones() as usize <= most);
    choices(most[0])
        .any(|of_a| choices(most[1]).any(|of_b| agreeing_inputs_are_alike(&patterns, of_b << values.shares | of_a)))
}

/// From how many mask settings each pattern on the set's wires comes.
fn count_patterns(settings: &[u16], set: &[u16]) -> Vec<u32> {
    let mut counts = vec![0; 1 << set.len()];
    for values in settings {
        let bits = set
            .iter()
            .enumerate()
            .map(|(place, wire)| usize::from(values >> wire & 1) << place);
        counts[bits.sum::<usize>()] += 1;
    }
    counts
}

/// Each input agrees with the one in which all shares that are not chosen are 0, and all that agree with each other
/// agree with the same one; so to compare each with that one is to compare all pairs.
fn agreeing_inputs_are_alike(patterns: &[Vec<u32>], chosen: usize) -> bool {
    (0..patterns.len()).all(|input| patterns[input] == patterns[input & chosen])
}
