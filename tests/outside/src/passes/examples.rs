//! The examples of the scope, with the values that it prints: the engine has to give them, whatever the model says.

use crate::engine;
use crate::model::records::{MAX_TABLE_BYTES, RECORD_BYTES};
use crate::random::Random;
use crate::reply::Reply;
use crate::tally::Tally;

pub const A: &str = "ORDER = 1\nMASKS = [r0]\ns00 r0\ns11 ((r0 s01) s10)\n";
pub const B: &str = "ORDER = 1\nMASKS = [r0]\ns00 r0\ns11 (s01 s10) r0\n";
const C: &str = "ORDER = 1\nMASKS = []\na0 b0\na1 b1\n";

/// The order 2 example of source 002.
const ORDER_2: &str = "ORDER = 2\nMASKS = [r0, r1, r2]\ns00 r0 s01 s10 r1\ns11 r1 s12 s21 r2\ns22 r2 s20 s02 r0\n";

/// Of 512 wires, one for the symbol of the first line, one for each addition there and one for each other line.
const ADDITIONS: usize = 507;

const PAIRS: [[u16; 2]; 6] = [[0, 1], [1, 2], [0, 2], [2, 3], [1, 3], [0, 3]];

pub fn run(_: &mut Random, tally: &mut Tally) {
    let mut right = Vec::new();
    reports(&mut right);
    limits(&mut right);
    numbering(&mut right);
    sizes(&mut right);
    let as_printed = right.iter().filter(|(_, right)| *right).count();
    tally.say(format!(
        "examples        {} of the scope, {as_printed} as printed there",
        right.len()
    ));
    for (name, _) in right.iter().filter(|(_, right)| !right) {
        tally.differs(|| format!("example: {name}"));
    }
}

type Examples = Vec<(&'static str, bool)>;

fn reports_as(text: &str, report: &str) -> bool {
    let bytes: Vec<u16> = report.bytes().map(u16::from).collect();
    engine::report_text(text.as_bytes(), 512) == Reply::answered(&[report.len() as u64], bytes)
}

fn reports(right: &mut Examples) {
    let head = "order 1 shares 2 masks 1 wires 9\nfunction product\n";
    right.push(("A", reports_as(A, &format!("{head}NI holds\nSNI holds\n"))));
    right.push((
        "B",
        reports_as(B, &format!("{head}NI broken 6 by both\nSNI broken 6 by both\n")),
    ));
    let report_on_c = "order 1 shares 2 masks 0 wires 6\nfunction sum\nNI holds\nSNI broken 2 by both\n";
    right.push(("C", reports_as(C, report_on_c)));
    right.push(("empty text", reports_as("", "refused 2 at 0\n")));
    right.push(("()", reports_as("ORDER = 1\nMASKS = []\n()\na0\n", "refused 6 at 22\n")));
    let table = engine::read_text(A.as_bytes(), MAX_TABLE_BYTES).written;
    let outer: Vec<u16> = table.chunks_exact(RECORD_BYTES).map(|record| record[18]).collect();
    right.push(("A's wires 2 and 8 are outer", outer == [0, 0, 1, 0, 0, 0, 0, 0, 1]));
}

/// Number and offset of a refused text, or 0 and the wires of one that was read.
fn read(text: &str) -> (u64, Option<u64>) {
    let reply = engine::read_text(text.as_bytes(), MAX_TABLE_BYTES);
    (
        reply.status,
        if reply.status == 0 {
            reply.numbers[3]
        } else {
            reply.numbers[4]
        },
    )
}

fn limits(right: &mut Examples) {
    right.push(("4,096 bytes", read(&format!("{C:4096}")) == (0, Some(6))));
    right.push(("4,097 bytes", read(&format!("{C:4097}")) == (1, Some(4096))));
    let deep = |depth: usize| {
        format!(
            "ORDER = 1\nMASKS = []\n{}a0{}\na1\n",
            "(".repeat(depth),
            ")".repeat(depth)
        )
    };
    right.push(("16 deep", read(&deep(16)) == (0, Some(4))));
    right.push(("17 deep", read(&deep(17)) == (8, Some(21 + 16))));
    // One wire for a0, one for each addition, two for the second line.
    let wires = |wires: usize| format!("ORDER = 1\nMASKS = []\na0{}\na1\n", " a0".repeat(wires - 3));
    right.push(("512 wires", read(&wires(512)) == (0, Some(512))));
    right.push(("513 wires", read(&wires(513)) == (10, Some(wires(513).len() as u64))));
    right.push(("24 wires", read(ORDER_2) == (0, Some(24))));
}

fn numbering(right: &mut Examples) {
    let answered = |numbers: &[u64]| Reply::answered(numbers, Vec::new());
    right.push(("276 pairs", engine::set_count(24, 2) == answered(&[276])));
    right.push(("job 3 of 7", engine::job(24, 2, 3, 7) == answered(&[118, 157])));
    right.push((
        "512 wires, size 4",
        engine::set_count(512, 4) == answered(&[2_829_877_120]),
    ));
    right.push((
        "job 2 of 16",
        engine::job(512, 4, 2, 16).numbers[0] == Some(353_734_640),
    ));
    let pairs = (0..6).map(|rank| engine::set_from_rank(4, 2, rank, 2).written);
    right.push(("the pairs of four", pairs.eq(PAIRS.iter().map(|pair| pair.to_vec()))));
    let ranks = PAIRS.iter().map(|pair| engine::rank_from_set(4, pair).numbers[0]);
    right.push(("their ranks", ranks.eq((0..6).map(Some))));
    let empty_set = |notion| engine::range_check(&[], [2, 0, notion, 0, 0], [0, 1]) == answered(&[1]);
    right.push(("the empty set breaks nothing", empty_set(1) && empty_set(2)));
}

/// The numbers of wires and of sets that the scope prints, told from texts that have them.
fn sizes(right: &mut Examples) {
    let told = |text: &str, numbers: [u64; 5], sets: &[u64]| {
        let mut wanted = Reply::answered(&numbers, Vec::new());
        wanted.sets = sets.to_vec();
        engine::check_size(text.as_bytes(), 7) == wanted
    };
    right.push(("A's size", told(A, [1, 2, 1, 9, 216], &[9])));
    let order_2 = told(ORDER_2, [2, 3, 3, 24, 576], &[24, 276]);
    right.push(("276 pairs, from the text", order_2));
    let text = format!(
        "ORDER = 4\nMASKS = []\na0{}{}\n",
        " a0".repeat(ADDITIONS),
        "\na0".repeat(4)
    );
    let sets = [512, 130_816, 22_238_720, 2_829_877_120];
    right.push((
        "512 wires, size 4, from a text",
        told(&text, [4, 5, 0, 512, 12_288], &sets),
    ));
}
