//! Numbers as 64-bit words, and the file form of a fixed list.

use std::fs::File;
use std::io::{BufWriter, Result, Write};
use std::path::Path;

/// The one pattern every NaN is written as.
pub const NAN: u64 = 0x7ff8000000000000;

/// The pattern of an answer.
pub fn word(x: f64) -> u64 {
    if x.is_nan() {
        NAN
    } else {
        x.to_bits()
    }
}

pub fn words(xs: &[f64]) -> Vec<u64> {
    xs.iter().map(|x| word(*x)).collect()
}

/// A NaN whose first digit bit is clear: the standard calls it signalling.
pub fn signalling(x: f64) -> bool {
    x.is_nan() && x.to_bits() & (1 << 51) == 0
}

/// Writes the number of records, then the words of all records, most significant byte first.
pub fn write_list(path: &Path, records: usize, words: &[u64]) -> Result<()> {
    let mut file = BufWriter::new(File::create(path)?);
    file.write_all(&(records as u64).to_be_bytes())?;
    for w in words {
        file.write_all(&w.to_be_bytes())?;
    }
    file.flush()
}
