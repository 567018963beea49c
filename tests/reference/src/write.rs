//! The writer (refusal 22): a task file's canonical form, with the variables, operators and terms in this order and without gaps.

use crate::task::{check, number, refuse, Refusal, HEADER, OPERATOR_BYTES, TERM_BYTES, VARIABLE_BYTES};

/// Where the header has each section's count and offset, and the bytes of its records, in the order in which they are written.
const SECTIONS: [(usize, usize, usize); 3] = [(4, 12, VARIABLE_BYTES), (6, 16, OPERATOR_BYTES), (8, 20, TERM_BYTES)];
/// The header's first bytes, which are written as they are: letters, counts and bound.
const KEPT: usize = 12;

/// The canonical file: every record as the file has it, the offsets and the length as they are now.
pub fn canonical(file: &[u8]) -> Result<Vec<u8>, Refusal> {
    check(file)?;
    let mut records: Vec<u8> = Vec::new();
    let mut places = Vec::new();
    for (count, offset, bytes) in SECTIONS {
        places.push(HEADER + records.len());
        records.extend(&file[number(file, offset, 4)..][..number(file, count, 2) * bytes]);
    }
    places.push(HEADER + records.len());
    let mut out = file[..KEPT].to_vec();
    out.extend(places.iter().flat_map(|&place| (place as u32).to_le_bytes()));
    out.extend(records);
    Ok(out)
}

/// Writes the canonical file at the front of the list: its length, or a refusal, which leaves the list as it was.
pub fn write(file: &[u8], out: &mut [u8]) -> Result<usize, Refusal> {
    let written = canonical(file)?;
    if out.len() < written.len() {
        return refuse(22, 0);
    }
    out[..written.len()].copy_from_slice(&written);
    Ok(written.len())
}
