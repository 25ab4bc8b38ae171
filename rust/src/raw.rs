//! The C functions over slices, with their answers as they are: the one place that declares them.

/// A slot of the table that `write` works in; what it holds does not matter.
#[repr(C)]
#[derive(Clone, Copy, Debug, Default, PartialEq, Eq)]
pub struct Slot {
    pub state: u32,
    pub hash: u32,
    pub record: u32,
}

/// How many slots are enough for `write`; more are as good.
pub const SLOTS: usize = 8192;

mod c {
    use super::Slot;

    unsafe extern "C" {
        pub fn crepedum_check(list: *const u8, list_len: usize, machine: u32, mingw: bool) -> u64;

        pub fn crepedum_total(
            list: *const u8,
            list_len: usize,
            machine: u32,
            mingw: bool,
            whole_archive_compat: bool,
        ) -> u64;

        pub fn crepedum_write(
            list: *const u8,
            list_len: usize,
            machine: u32,
            mingw: bool,
            whole_archive_compat: bool,
            slots: *mut Slot,
            slots_len: usize,
            out: *mut u8,
            out_len: usize,
        ) -> u64;

        pub fn crepedum_read(
            member: *const u8,
            len: usize,
            fields: *mut u32,
            fields_len: usize,
        ) -> u64;

        pub fn crepedum_lookup(
            set: *const u8,
            set_len: usize,
            list: u32,
            symbol: *const u8,
            symbol_len: usize,
            fields: *mut u32,
            fields_len: usize,
        ) -> u64;
    }
}

/// 0, or the refusal's number times 2^32, plus its place.
#[inline]
pub fn check(list: &[u8], machine: u32, mingw: bool) -> u64 {
    // SAFETY: the pointer and length are those of a slice, which the library only reads.
    unsafe { c::crepedum_check(list.as_ptr(), list.len(), machine, mingw) }
}

/// The total of the set, or the refusal's number times 2^32, plus its place.
#[inline]
pub fn total(list: &[u8], machine: u32, mingw: bool, whole_archive_compat: bool) -> u64 {
    // SAFETY: the pointer and length are those of a slice, which the library only reads.
    unsafe {
        c::crepedum_total(
            list.as_ptr(),
            list.len(),
            machine,
            mingw,
            whole_archive_compat,
        )
    }
}

/// The total of the set, which then stands in `out`, or the refusal's number times 2^32, plus its place: 19 where there are fewer
/// than `SLOTS` slots, which are then as they were.
#[inline]
pub fn write(
    list: &[u8],
    machine: u32,
    mingw: bool,
    whole_archive_compat: bool,
    slots: &mut [Slot],
    out: &mut [u8],
) -> u64 {
    // SAFETY: all pairs are those of slices, the last two of ones that nobody else holds; a slot is laid out as C has it, and any
    // three numbers are one.
    unsafe {
        c::crepedum_write(
            list.as_ptr(),
            list.len(),
            machine,
            mingw,
            whole_archive_compat,
            slots.as_mut_ptr(),
            slots.len(),
            out.as_mut_ptr(),
            out.len(),
        )
    }
}

/// The layout's number, with eleven fields filled, or the refusal's number times 2^32.
#[inline]
pub fn read(member: &[u8], fields: &mut [u32]) -> u64 {
    // SAFETY: both pairs are those of slices, the second of one that nobody else holds.
    unsafe {
        c::crepedum_read(
            member.as_ptr(),
            member.len(),
            fields.as_mut_ptr(),
            fields.len(),
        )
    }
}

/// The answer's number, with the fields that it uses filled, or the refusal's number times 2^32.
#[inline]
pub fn lookup(set: &[u8], list: u32, symbol: &[u8], fields: &mut [u32]) -> u64 {
    // SAFETY: all pairs are those of slices, the last of one that nobody else holds.
    unsafe {
        c::crepedum_lookup(
            set.as_ptr(),
            set.len(),
            list,
            symbol.as_ptr(),
            symbol.len(),
            fields.as_mut_ptr(),
            fields.len(),
        )
    }
}
