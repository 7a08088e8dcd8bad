//! The library through its C interface, with the signatures that `fast` has.

/// The record entrance is not measured: it differs in the lookup alone.
#[allow(dead_code)]
mod interface {
    include!(concat!(env!("CARGO_MANIFEST_DIR"), "/../include/hiranthok.rs"));
}

pub use interface::sizes;
use interface::*;

// Each pointer below comes from a slice that lives through the call, with that slice's length.

pub fn admit(table: &[u32], answer: &mut [u64; 4]) -> u32 {
    unsafe { hiranthok_admit(table.as_ptr(), table.len(), answer) }
}

pub fn finish(table: &[u32], room: &mut [u32], answer: &mut [u64; 4]) -> u32 {
    unsafe { hiranthok_finish(table.as_ptr(), table.len(), room.as_mut_ptr(), room.len(), answer) }
}

pub fn print(table: &[u32], text: &mut [u8], answer: &mut [u64; 4]) -> u32 {
    unsafe { hiranthok_print(table.as_ptr(), table.len(), text.as_mut_ptr(), text.len(), answer) }
}

pub fn parse(text: &[u8], room: &mut [u32], answer: &mut [u64; 4]) -> u32 {
    unsafe { hiranthok_parse(text.as_ptr(), text.len(), room.as_mut_ptr(), room.len(), answer) }
}

pub fn evaluate(
    table: &[u32],
    values: &[u32],
    cells: &[u32],
    allowance: u64,
    work: &mut [u32],
    answer: &mut [u64; 4],
) -> u32 {
    let (t, v, c) = (table.as_ptr(), values.as_ptr(), cells.as_ptr());
    let (tn, vn, cn, room) = (table.len(), values.len(), cells.len(), work.len());
    unsafe { hiranthok_evaluate(t, tn, v, vn, c, cn, allowance, work.as_mut_ptr(), room, answer) }
}

pub fn judge(
    table: &[u32],
    sheet: &[u32],
    values: &[u32],
    cells: &[u32],
    allowance: u64,
    work: &mut [u32],
    answer: &mut [u64; 4],
) -> u32 {
    let (t, s, v, c) = (table.as_ptr(), sheet.as_ptr(), values.as_ptr(), cells.as_ptr());
    let (tn, sn, vn, cn, room) = (table.len(), sheet.len(), values.len(), cells.len(), work.len());
    unsafe { hiranthok_judge(t, tn, s, sn, v, vn, c, cn, allowance, work.as_mut_ptr(), room, answer) }
}
