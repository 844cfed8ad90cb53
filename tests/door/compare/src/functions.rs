//! The functions of include/reserve.h, as the archive exports them.

#[repr(C)]
pub struct Outcome {
    pub answer: u16,
    pub node: u16,
    pub moves: u16,
}

#[repr(C)]
pub struct Admission {
    pub answer: u16,
    pub tenant: u16,
    pub node: u16,
    pub moves: u16,
}

#[repr(C)]
pub struct Entry {
    pub answer: u16,
    pub node: u16,
}

#[repr(C)]
pub struct Level {
    pub answer: u16,
    pub level: u16,
}

#[repr(C)]
pub struct Pages {
    pub answer: u16,
    pub first: u16,
    pub count: u16,
}

#[repr(C)]
pub struct Read {
    pub answer: u16,
    pub kind: u16,
    pub who: u16,
    pub size: u16,
    pub offset: usize,
}

#[repr(C)]
pub struct Written {
    pub answer: u16,
    pub length: usize,
}

#[repr(C)]
pub struct Counted {
    pub answer: u16,
    pub count: u16,
}

extern "C" {
    pub fn reserve_open(height: u16, table: *mut u8, table_length: usize, line: *mut u8, line_length: usize) -> u16;
    pub fn reserve_grant_level(
        height: u16,
        table: *mut u8,
        table_length: usize,
        line: *mut u8,
        line_length: usize,
        moves: *mut u8,
        moves_length: usize,
        tenant: u16,
        level: u16,
    ) -> Outcome;
    pub fn reserve_grant_pages(
        height: u16,
        table: *mut u8,
        table_length: usize,
        line: *mut u8,
        line_length: usize,
        moves: *mut u8,
        moves_length: usize,
        tenant: u16,
        pages: u16,
    ) -> Outcome;
    pub fn reserve_release(
        height: u16,
        table: *mut u8,
        table_length: usize,
        moves: *mut u8,
        moves_length: usize,
        tenant: u16,
    ) -> Outcome;
    pub fn reserve_grow(
        height: u16,
        table: *mut u8,
        table_length: usize,
        moves: *mut u8,
        moves_length: usize,
        tenant: u16,
        level: u16,
    ) -> Outcome;
    pub fn reserve_join(
        height: u16,
        table: *const u8,
        table_length: usize,
        line: *mut u8,
        line_length: usize,
        tenant: u16,
        level: u16,
    ) -> u16;
    pub fn reserve_admit(
        height: u16,
        table: *mut u8,
        table_length: usize,
        line: *mut u8,
        line_length: usize,
        moves: *mut u8,
        moves_length: usize,
    ) -> Admission;
    pub fn reserve_withdraw(
        height: u16,
        table: *const u8,
        table_length: usize,
        line: *mut u8,
        line_length: usize,
        tenant: u16,
    ) -> u16;
    pub fn reserve_look(table: *const u8, table_length: usize, tenant: u16) -> Entry;
    pub fn reserve_level_of_pages(height: u16, pages: u16) -> Level;
    pub fn reserve_node_pages(height: u16, node: u16) -> Pages;
    pub fn reserve_draw(height: u16, table: *const u8, table_length: usize, map: *mut u8, map_length: usize) -> u16;
    pub fn reserve_count(map: *const u8, map_length: usize) -> Counted;
    pub fn reserve_read(journal: *const u8, journal_length: usize, offset: usize) -> Read;
    pub fn reserve_write_open(height: u8, out: *mut u8, out_length: usize) -> Written;
    pub fn reserve_write_grant_level(tenant: u16, level: u8, out: *mut u8, out_length: usize) -> Written;
    pub fn reserve_write_grant_pages(tenant: u16, pages: u16, out: *mut u8, out_length: usize) -> Written;
    pub fn reserve_write_release(tenant: u16, out: *mut u8, out_length: usize) -> Written;
    pub fn reserve_write_grow(tenant: u16, level: u8, out: *mut u8, out_length: usize) -> Written;
    pub fn reserve_write_join(tenant: u16, level: u8, out: *mut u8, out_length: usize) -> Written;
    pub fn reserve_write_admit(out: *mut u8, out_length: usize) -> Written;
    pub fn reserve_write_withdraw(tenant: u16, out: *mut u8, out_length: usize) -> Written;
}

/// A call of one of these functions, with the slices between the brackets passed as pointer and length.
macro_rules! lend {
    ($function:ident($height:expr, [$($slice:expr),+] $(, $number:expr)*)) => {
        $function($height, $($slice.as_mut_ptr(), $slice.len(),)+ $($number),*)
    };
}
pub(crate) use lend;
