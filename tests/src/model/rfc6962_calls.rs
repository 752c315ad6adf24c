//! Root, inclusion path and consistency proof of the RFC 6962 edition, on any bytes. All three audit
//! first, and the inputs of the RFC's tree are the log's value items.

#![forbid(unsafe_code)]

use super::log::values;
use super::rfc6962::{mth, path, proof};
use super::tree::Digest;

/// The Merkle Tree Hash of the values; 6 if the log is not well formed.
pub fn rfc6962_root(log: &[u8]) -> Result<Digest, u32> {
    let values = values(log).ok_or(6_u32)?;
    Ok(mth(&values))
}

/// Writes the audit path of value i, the digest next to the leaf first, and answers how many bytes
/// it is: 6, then 2 for an index out of range, then 8.
pub fn rfc6962_path(log: &[u8], i: usize, output: &mut [u8]) -> Result<usize, u32> {
    let values = values_for(log, i)?;
    write(&path(i - 1, &values), output)
}

/// Writes the consistency proof from m values to all, in the RFC's order, and answers how many bytes it
/// is: 6, then 2 for an m out of range, then 8.
pub fn rfc6962_consistency(log: &[u8], m: usize, output: &mut [u8]) -> Result<usize, u32> {
    let values = values_for(log, m)?;
    write(&proof(m, &values), output)
}

/// The values of a well-formed log (else 6), if a number is from 1 to how many they are (else 2).
fn values_for(log: &[u8], number: usize) -> Result<Vec<Vec<u8>>, u32> {
    let values = values(log).ok_or(6_u32)?;
    if 1 <= number && number <= values.len() {
        Ok(values)
    } else {
        Err(2)
    }
}

fn write(digests: &[Digest], output: &mut [u8]) -> Result<usize, u32> {
    let bytes = digests.concat();
    let room = output.get_mut(..bytes.len()).ok_or(8_u32)?;
    room.copy_from_slice(&bytes);
    Ok(bytes.len())
}
