//! The proved library and the plain implementation, each behind the same table of calls.

use bench::plain;

/// List, position, starting cell, record or records, and allowance.
type Insert = fn(&mut [u8], u16, u16, u16, &[u8], u16) -> u32;

/// List, position, starting cell and records of an insert that is told of beforehand.
type Told = fn(&[u8], u16, u16, u16, &[u8]) -> u32;

pub struct Engine {
    pub format: fn(&mut [u8], u16, u16, u16) -> u32,
    pub check: fn(&[u8]) -> u32,
    pub length: fn(&[u8], u16) -> u32,
    /// 65,536 and the first word of the record, or 0 for a refusal.
    pub read: fn(&[u8], u16, u16) -> u32,
    pub insert: Insert,
    pub insert_several: Insert,
    pub delete: fn(&mut [u8], u16, u16, u16) -> u32,
    pub mark_worn: fn(&mut [u8], u16) -> u32,
    pub recover: fn(&mut [u8], u16) -> u32,
    pub first_cell: Told,
    pub last_cell: Told,
    pub several_stores: Told,
    pub recover_stores: fn(&[u8]) -> u32,
}

pub static PLAIN: Engine = Engine {
    format: |store, lists, nodes, width| plain::format(store, lists, nodes, width),
    check: |store| plain::check(store),
    length: |store, list| plain::length(store, list),
    read: |store, list, position| {
        plain::read(store, list, position).map_or(0, |record| 65_536 + u32::from(u16::from_le_bytes([record[0], record[1]])))
    },
    insert: |store, list, position, start, record, allowance| plain::insert(store, list, position, start, record, allowance),
    insert_several: |store, list, position, start, records, allowance| {
        plain::insert_several(store, list, position, start, records, allowance)
    },
    delete: |store, list, position, allowance| plain::delete(store, list, position, allowance),
    mark_worn: |store, cell| plain::mark_worn(store, cell),
    recover: |store, allowance| plain::recover(store, allowance),
    first_cell: |store, list, position, start, records| {
        plain::insert_several_first_cell(store, list, position, start, records)
    },
    last_cell: |store, list, position, start, records| {
        plain::insert_several_last_cell(store, list, position, start, records)
    },
    several_stores: |store, list, position, start, records| {
        plain::insert_several_stores(store, list, position, start, records)
    },
    recover_stores: |store| plain::recover_stores(store),
};

#[link(name = "axle", kind = "static")]
extern "C" {
    fn axle_format(store: *mut u8, store_len: usize, lists: u16, nodes: u16, record_words: u16) -> u32;
    fn axle_check(store: *const u8, store_len: usize) -> u32;
    fn axle_length(store: *const u8, store_len: usize, list: u16) -> u32;
    fn axle_insert(
        store: *mut u8,
        store_len: usize,
        list: u16,
        position: u16,
        start: u16,
        record: *const u8,
        record_len: usize,
        allowance: u16,
    ) -> u32;
    fn axle_insert_several(
        store: *mut u8,
        store_len: usize,
        list: u16,
        position: u16,
        start: u16,
        records: *const u8,
        records_len: usize,
        allowance: u16,
    ) -> u32;
    fn axle_delete(store: *mut u8, store_len: usize, list: u16, position: u16, allowance: u16) -> u32;
    fn axle_mark_worn(store: *mut u8, store_len: usize, cell: u16) -> u32;
    fn axle_recover(store: *mut u8, store_len: usize, allowance: u16) -> u32;
    fn axle_insert_several_first_cell(
        store: *const u8,
        store_len: usize,
        list: u16,
        position: u16,
        start: u16,
        records: *const u8,
        records_len: usize,
    ) -> u32;
    fn axle_insert_several_last_cell(
        store: *const u8,
        store_len: usize,
        list: u16,
        position: u16,
        start: u16,
        records: *const u8,
        records_len: usize,
    ) -> u32;
    fn axle_insert_several_stores(
        store: *const u8,
        store_len: usize,
        list: u16,
        position: u16,
        start: u16,
        records: *const u8,
        records_len: usize,
    ) -> u32;
    fn axle_recover_stores(store: *const u8, store_len: usize) -> u32;
}

// Read is not part of the C interface: crate word_exports exports it, on words.
#[link(name = "word_exports", kind = "static")]
extern "C" {
    fn words_read(words: *const u16, words_len: usize, list: u16, position: u16) -> u32;
}

// Safe: each call gets the pointer and the length of one slice, and touches nothing else.
pub static PROVED: Engine = Engine {
    format: |store, lists, nodes, width| unsafe { axle_format(store.as_mut_ptr(), store.len(), lists, nodes, width) },
    check: |store| unsafe { axle_check(store.as_ptr(), store.len()) },
    length: |store, list| unsafe { axle_length(store.as_ptr(), store.len(), list) },
    read: |store, list, position| unsafe {
        let (before, words, after) = store.align_to::<u16>();
        assert!(before.is_empty() && after.is_empty(), "the bytes do not lie as words");
        words_read(words.as_ptr(), words.len(), list, position)
    },
    insert: |store, list, position, start, record, allowance| unsafe {
        let (length, at, record_length) = (store.len(), record.as_ptr(), record.len());
        axle_insert(store.as_mut_ptr(), length, list, position, start, at, record_length, allowance)
    },
    insert_several: |store, list, position, start, records, allowance| unsafe {
        let (length, at, records_length) = (store.len(), records.as_ptr(), records.len());
        axle_insert_several(store.as_mut_ptr(), length, list, position, start, at, records_length, allowance)
    },
    delete: |store, list, position, allowance| unsafe {
        axle_delete(store.as_mut_ptr(), store.len(), list, position, allowance)
    },
    mark_worn: |store, cell| unsafe { axle_mark_worn(store.as_mut_ptr(), store.len(), cell) },
    recover: |store, allowance| unsafe { axle_recover(store.as_mut_ptr(), store.len(), allowance) },
    first_cell: |store, list, position, start, records| unsafe {
        let (at, records_length) = (records.as_ptr(), records.len());
        axle_insert_several_first_cell(store.as_ptr(), store.len(), list, position, start, at, records_length)
    },
    last_cell: |store, list, position, start, records| unsafe {
        let (at, records_length) = (records.as_ptr(), records.len());
        axle_insert_several_last_cell(store.as_ptr(), store.len(), list, position, start, at, records_length)
    },
    several_stores: |store, list, position, start, records| unsafe {
        let (at, records_length) = (records.as_ptr(), records.len());
        axle_insert_several_stores(store.as_ptr(), store.len(), list, position, start, at, records_length)
    },
    recover_stores: |store| unsafe { axle_recover_stores(store.as_ptr(), store.len()) },
};
