//! The reader of tests/differential for the checks in C: a reading into tables, as cairo_m_read has it, without the list of records.

#[allow(dead_code)]
#[path = "../differential/reader.rs"]
mod reader;

use std::slice;

/// # Safety
/// Each pointer is for as many bytes as its size says, `counts` for three numbers, and none overlaps another.
#[no_mangle]
pub unsafe extern "C" fn reference_read(
    text: *const u8,
    length: usize,
    tokens: *mut u8,
    tokens_size: usize,
    nodes: *mut u8,
    nodes_size: usize,
    diagnostics: *mut u8,
    diagnostics_size: usize,
    counts: *mut usize,
) -> u32 {
    let answer = reader::read(slice::from_raw_parts(text, length), tokens_size, nodes_size);
    let lay = |table: *mut u8, size: usize, bytes: Vec<u8>| slice::from_raw_parts_mut(table, size).copy_from_slice(&bytes);
    lay(tokens, tokens_size, reader::table(&answer.tokens, tokens_size));
    lay(nodes, nodes_size, reader::table(&answer.nodes, nodes_size));
    lay(diagnostics, diagnostics_size, reader::table(&answer.diagnostics, diagnostics_size));
    slice::from_raw_parts_mut(counts, 3).copy_from_slice(&[answer.token_count, answer.node_count, answer.diagnostics.len()]);
    answer.outcome
}
