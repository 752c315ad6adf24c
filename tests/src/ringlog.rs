//! The library as include/ringlog.h declares it, behind safe wrappers.

/// `struct ringlog_digest`: number 0 and the digest, or the number of a refusal and zero bytes.
#[repr(C)]
#[derive(Clone, Copy, Debug, PartialEq, Eq)]
pub struct Digest {
    pub number: u32,
    pub digest: [u8; 32],
}

/// `struct ringlog_count`: number 0 and the value, or the number of a refusal and value 0.
#[repr(C)]
#[derive(Clone, Copy, Debug, PartialEq, Eq)]
pub struct Count {
    pub number: u32,
    pub value: u64,
}

/// `struct ringlog_extent`
#[repr(C)]
#[derive(Clone, Copy, Debug, PartialEq, Eq)]
pub struct Extent {
    pub entries: u64,
    pub bytes: u64,
}

/// `struct ringlog_part`: number 0 and a part of the lent log, or the number of a refusal and zeros.
#[repr(C)]
#[derive(Clone, Copy, Debug, PartialEq, Eq)]
pub struct Part {
    pub number: u32,
    pub offset: u64,
    pub length: u64,
}

/// `struct ringlog_split`: number 0 and what a search has found, or the number of a refusal, its
/// side and zeros.
#[repr(C)]
#[derive(Clone, Copy, Debug, Default, PartialEq, Eq)]
pub struct Split {
    pub number: u32,
    pub side: u32,
    pub common: u64,
    pub verdict: u32,
    pub place: u64,
    pub first_reads: u64,
    pub second_reads: u64,
}

/// `struct ringlog_piece`: a donor and a part of it, or zeros where the search refuses.
#[repr(C)]
#[derive(Clone, Copy, Debug, Default, PartialEq, Eq)]
pub struct Piece {
    pub donor: u32,
    pub offset: u64,
    pub length: u64,
}

extern "C" {
    fn ringlog_sha256(message: *const u8, message_len: usize) -> Digest;
    fn ringlog_append(
        buffer: *mut u8,
        buffer_len: usize,
        used: usize,
        item: *const u8,
        item_len: usize,
    ) -> Count;
    fn ringlog_audit(bytes: *const u8, bytes_len: usize) -> Extent;
    fn ringlog_root(log: *const u8, log_len: usize) -> Digest;
    fn ringlog_value(
        log: *const u8,
        log_len: usize,
        root: *const u8,
        root_len: usize,
        index: usize,
    ) -> Part;
    fn ringlog_proof(
        log: *const u8,
        log_len: usize,
        index: usize,
        output: *mut u8,
        output_len: usize,
    ) -> Count;
    fn ringlog_check_proof(
        count: usize,
        index: usize,
        item: *const u8,
        item_len: usize,
        proof: *const u8,
        proof_len: usize,
        root: *const u8,
        root_len: usize,
    ) -> bool;
    fn ringlog_cut(buffer: *mut u8, buffer_len: usize, used: usize, count: usize) -> Count;
    fn ringlog_search(
        first: *const u8,
        first_len: usize,
        second: *const u8,
        second_len: usize,
    ) -> Split;
    fn ringlog_repair(
        first: *const u8,
        first_len: usize,
        second: *const u8,
        second_len: usize,
    ) -> Piece;
    fn ringlog_rfc6962_root(log: *const u8, log_len: usize) -> Digest;
    fn ringlog_rfc6962_path(
        log: *const u8,
        log_len: usize,
        index: usize,
        output: *mut u8,
        output_len: usize,
    ) -> Count;
    fn ringlog_rfc6962_check_path(
        count: usize,
        index: usize,
        item: *const u8,
        item_len: usize,
        path: *const u8,
        path_len: usize,
        root: *const u8,
        root_len: usize,
    ) -> bool;
    fn ringlog_rfc6962_consistency(
        log: *const u8,
        log_len: usize,
        old_count: usize,
        output: *mut u8,
        output_len: usize,
    ) -> Count;
    fn ringlog_rfc6962_check_consistency(
        old_count: usize,
        new_count: usize,
        proof: *const u8,
        proof_len: usize,
        old_root: *const u8,
        old_root_len: usize,
        new_root: *const u8,
        new_root_len: usize,
    ) -> bool;
}

// SAFETY, of each call below: a slice's pointer is not null, also for an empty slice, and is good
// for reading as many bytes as the slice has for as long as the call lasts; that of a mutable
// slice is good for writing too, and no other slice overlaps it.

pub fn sha256(message: &[u8]) -> Digest {
    unsafe { ringlog_sha256(message.as_ptr(), message.len()) }
}

pub fn append(buffer: &mut [u8], used: usize, item: &[u8]) -> Count {
    let (start, len) = (buffer.as_mut_ptr(), buffer.len());
    unsafe { ringlog_append(start, len, used, item.as_ptr(), item.len()) }
}

pub fn audit(bytes: &[u8]) -> Extent {
    unsafe { ringlog_audit(bytes.as_ptr(), bytes.len()) }
}

pub fn root(log: &[u8]) -> Digest {
    unsafe { ringlog_root(log.as_ptr(), log.len()) }
}

pub fn value(log: &[u8], root: &[u8], index: usize) -> Part {
    unsafe { ringlog_value(log.as_ptr(), log.len(), root.as_ptr(), root.len(), index) }
}

pub fn proof(log: &[u8], index: usize, output: &mut [u8]) -> Count {
    let (start, len) = (output.as_mut_ptr(), output.len());
    unsafe { ringlog_proof(log.as_ptr(), log.len(), index, start, len) }
}

pub fn check_proof(count: usize, index: usize, item: &[u8], proof: &[u8], root: &[u8]) -> bool {
    let (item, item_len) = (item.as_ptr(), item.len());
    let (proof, proof_len) = (proof.as_ptr(), proof.len());
    let (root, root_len) = (root.as_ptr(), root.len());
    unsafe {
        ringlog_check_proof(
            count, index, item, item_len, proof, proof_len, root, root_len,
        )
    }
}

pub fn cut(buffer: &mut [u8], used: usize, count: usize) -> Count {
    let (start, len) = (buffer.as_mut_ptr(), buffer.len());
    unsafe { ringlog_cut(start, len, used, count) }
}

pub fn search(first: &[u8], second: &[u8]) -> Split {
    let (second, second_len) = (second.as_ptr(), second.len());
    unsafe { ringlog_search(first.as_ptr(), first.len(), second, second_len) }
}

pub fn repair(first: &[u8], second: &[u8]) -> Piece {
    let (second, second_len) = (second.as_ptr(), second.len());
    unsafe { ringlog_repair(first.as_ptr(), first.len(), second, second_len) }
}

pub fn rfc6962_root(log: &[u8]) -> Digest {
    unsafe { ringlog_rfc6962_root(log.as_ptr(), log.len()) }
}

pub fn rfc6962_path(log: &[u8], index: usize, output: &mut [u8]) -> Count {
    let (start, len) = (output.as_mut_ptr(), output.len());
    unsafe { ringlog_rfc6962_path(log.as_ptr(), log.len(), index, start, len) }
}

pub fn rfc6962_check_path(
    count: usize,
    index: usize,
    item: &[u8],
    path: &[u8],
    root: &[u8],
) -> bool {
    let (item, item_len) = (item.as_ptr(), item.len());
    let (path, path_len) = (path.as_ptr(), path.len());
    let (root, root_len) = (root.as_ptr(), root.len());
    unsafe {
        ringlog_rfc6962_check_path(count, index, item, item_len, path, path_len, root, root_len)
    }
}

pub fn rfc6962_consistency(log: &[u8], old_count: usize, output: &mut [u8]) -> Count {
    let (start, len) = (output.as_mut_ptr(), output.len());
    unsafe { ringlog_rfc6962_consistency(log.as_ptr(), log.len(), old_count, start, len) }
}

pub fn rfc6962_check_consistency(
    old_count: usize,
    new_count: usize,
    proof: &[u8],
    old_root: &[u8],
    new_root: &[u8],
) -> bool {
    let (proof, proof_len) = (proof.as_ptr(), proof.len());
    let (old_root, old_len) = (old_root.as_ptr(), old_root.len());
    let (new_root, new_len) = (new_root.as_ptr(), new_root.len());
    unsafe {
        ringlog_rfc6962_check_consistency(
            old_count, new_count, proof, proof_len, old_root, old_len, new_root, new_len,
        )
    }
}
