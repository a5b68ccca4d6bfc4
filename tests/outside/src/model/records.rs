//! Tables: the record of a wire, sums of records, values, and the tests that every operation on a table makes first.

pub const RECORD_BYTES: usize = 24;
pub const MAX_WIRES: usize = 512;
pub const MAX_TABLE_BYTES: usize = RECORD_BYTES * MAX_WIRES;
pub const MAX_SHARES: usize = 8;
pub const MAX_MASKS: usize = 64;

#[derive(Clone, Copy, PartialEq, Eq, Default)]
pub struct Record {
    pub products: u64,
    pub masks: u64,
    pub a: u8,
    pub b: u8,
    pub outer: u8,
    pub line: u8,
    pub offset: u16,
    pub length: u16,
}

impl Record {
    pub fn product(i: usize, j: usize) -> Record {
        Record {
            products: 1 << (8 * i + j),
            ..Record::default()
        }
    }

    pub fn mask(k: usize) -> Record {
        Record {
            masks: 1 << k,
            ..Record::default()
        }
    }

    pub fn share_of_a(i: usize) -> Record {
        Record {
            a: 1 << i,
            ..Record::default()
        }
    }

    pub fn share_of_b(j: usize) -> Record {
        Record {
            b: 1 << j,
            ..Record::default()
        }
    }

    /// The sum without carry. What is no part of a sum (outer, line, part) is 0 in it.
    pub fn plus(self, other: Record) -> Record {
        Record {
            products: self.products ^ other.products,
            masks: self.masks ^ other.masks,
            a: self.a ^ other.a,
            b: self.b ^ other.b,
            ..Record::default()
        }
    }

    /// What is named in both.
    pub fn common(self, other: Record) -> Record {
        Record {
            products: self.products & other.products,
            masks: self.masks & other.masks,
            a: self.a & other.a,
            b: self.b & other.b,
            ..Record::default()
        }
    }

    pub fn is_outer(self) -> bool {
        self.outer == 1
    }

    /// The wire's bit, where the shares of a, those of b and the masks have the bits given.
    pub fn value(self, a: u8, b: u8, masks: u64) -> bool {
        let shares_of_a_that_are_1 = (0..MAX_SHARES).filter(|i| a >> i & 1 == 1);
        let products_that_are_1: u64 = shares_of_a_that_are_1.map(|i| u64::from(b) << (8 * i)).sum();
        let named = (self.products & products_that_are_1).count_ones()
            + (self.masks & masks).count_ones()
            + (self.a & a).count_ones()
            + (self.b & b).count_ones();
        named % 2 == 1
    }

    fn from_bytes(bytes: &[u8]) -> Record {
        let number = |from: usize, to: usize| {
            (from..to)
                .rev()
                .fold(0, |number: u64, place| number << 8 | u64::from(bytes[place]))
        };
        Record {
            products: number(0, 8),
            masks: number(8, 16),
            a: bytes[16],
            b: bytes[17],
            outer: bytes[18],
            line: bytes[19],
            offset: number(20, 22) as u16,
            length: number(22, 24) as u16,
        }
    }

    fn to_bytes(self) -> Vec<u8> {
        let mut bytes = Vec::with_capacity(RECORD_BYTES);
        bytes.extend(self.products.to_le_bytes());
        bytes.extend(self.masks.to_le_bytes());
        bytes.extend([self.a, self.b, self.outer, self.line]);
        bytes.extend(self.offset.to_le_bytes());
        bytes.extend(self.length.to_le_bytes());
        bytes
    }

    /// Bit by bit, in the words of the scope: a bit beyond shares or masks, or byte 18 over 1.
    fn is_within(self, shares: usize, masks: usize) -> bool {
        let product_beyond = |bit: usize| self.products >> bit & 1 == 1 && (bit / 8 >= shares || bit % 8 >= shares);
        let mask_beyond = |bit: usize| self.masks >> bit & 1 == 1 && bit >= masks;
        let share_beyond = |bit: usize| (self.a | self.b) >> bit & 1 == 1 && bit >= shares;
        let beyond = (0..64).any(|bit| product_beyond(bit) || mask_beyond(bit)) || (0..8).any(share_beyond);
        !beyond && self.outer <= 1
    }
}

pub fn parse(table: &[u8]) -> Vec<Record> {
    table.chunks_exact(RECORD_BYTES).map(Record::from_bytes).collect()
}

pub fn to_bytes(records: &[Record]) -> Vec<u8> {
    records.iter().flat_map(|record| record.to_bytes()).collect()
}

/// Refusal 12 of the operations on a table.
pub fn length_is_wrong(table: &[u8]) -> bool {
    table.len() % RECORD_BYTES != 0 || table.len() > MAX_TABLE_BYTES
}

/// The first of the refusals 11, 12 and 13, or the records.
pub fn tested(table: &[u8], shares: usize, masks: usize) -> Result<Vec<Record>, u64> {
    if !(2..=MAX_SHARES).contains(&shares) || masks > MAX_MASKS {
        return Err(11);
    }
    if length_is_wrong(table) {
        return Err(12);
    }
    let records = parse(table);
    match records.iter().all(|record| record.is_within(shares, masks)) {
        true => Ok(records),
        false => Err(13),
    }
}
