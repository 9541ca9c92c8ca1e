//! Rows and tables of bits (rule 1.2), a row having so many words.
use super::network::Pairs;
use std::collections::BTreeSet;

fn places(row: &[u64]) -> impl Iterator<Item = usize> + '_ {
    (0..64 * row.len()).filter(|place| row[place / 64] != 0 && row[place / 64] >> (place % 64) & 1 == 1)
}

/// The places of a row.
pub fn set_of_row(row: &[u64]) -> BTreeSet<usize> {
    places(row).collect()
}

/// The words of a set of places.
pub fn row_of_set(words: usize, set: &BTreeSet<usize>) -> Vec<u64> {
    let mut row = vec![0; words];
    for place in set {
        row[place / 64] += 2u64.pow((place % 64) as u32);
    }
    row
}

/// The places of each row of a table that has some, rising, with the number of the row.
pub fn rows_of_table(words: usize, table: &[u64]) -> impl Iterator<Item = (usize, Vec<usize>)> + '_ {
    let rows = table.chunks(words).take(64 * words).enumerate();
    rows.filter(|(_, row)| row.iter().any(|&word| word != 0)).map(|(u, row)| (u, places(row).collect()))
}

/// The bits of a table, as (row, place).
pub fn bits_of_table(words: usize, table: &[u64]) -> Pairs {
    rows_of_table(words, table).flat_map(|(u, row)| row.into_iter().map(move |v| (u, v))).collect()
}

/// The words of a table of some bits, none of them named twice.
pub fn table_of_bits(words: usize, bits: impl IntoIterator<Item = (usize, usize)>) -> Vec<u64> {
    let mut table = vec![0; 64 * words * words];
    for (u, v) in bits {
        table[words * u + v / 64] += 2u64.pow((v % 64) as u32);
    }
    table
}
