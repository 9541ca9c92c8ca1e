//! Rows of four words as sets of codes.

/// Whether a row has a code.
pub(crate) fn has(row: &[u64], code: u8) -> bool {
    row[usize::from(code / 64)] >> (code % 64) & 1 == 1
}

/// The codes of a row.
pub(crate) fn codes(row: &[u64]) -> Codes<'_> {
    Codes { row, next: 0 }
}

/// Codes of depots, rising.
#[derive(Clone, Debug)]
pub struct Codes<'a> {
    row: &'a [u64],
    next: u16,
}

impl Iterator for Codes<'_> {
    type Item = u8;

    fn next(&mut self) -> Option<u8> {
        while let Ok(code) = u8::try_from(self.next) {
            self.next += 1;
            if has(self.row, code) {
                return Some(code);
            }
        }
        None
    }
}
