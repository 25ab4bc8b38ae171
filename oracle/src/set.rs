//! The member set: a header, a directory and the members back to back.

use crate::ask::{Member, Members};
use crate::list::push_u32;

/// Size of the header.
pub const HEADER_SIZE: usize = 16;
/// Size of a member's directory entry.
pub const ENTRY_SIZE: usize = 8;

/// Lays the members out as a member set.
pub fn lay_out(members: &Members) -> Vec<u8> {
    let count = members.all().count();
    let first_at = HEADER_SIZE + ENTRY_SIZE * count;

    let mut set = Vec::new();
    push_u32(&mut set, count);
    push_u32(&mut set, members.first.len());
    push_u32(&mut set, members.native.len());
    push_u32(&mut set, first_at);
    let mut at = first_at;
    for Member { bytes, .. } in members.all() {
        push_u32(&mut set, at);
        push_u32(&mut set, bytes.len());
        at += bytes.len();
    }
    for Member { bytes, .. } in members.all() {
        set.extend(bytes);
    }
    set
}
