//! The calls and structs of `bindings/c/clubcard.h`, of interface 2.

use crate::Sighting;

/// `clubcard_one_query`
#[repr(C)]
pub struct OneQuery {
    pub issuer: [u8; 32],
    pub serial: [u8; 32],
    pub serial_len: u32,
    pub first_sighting: u32,
    pub sightings: u32,
    pub answer: u32,
}

/// `clubcard_store_facts`
#[repr(C)]
#[derive(Default)]
pub struct StoreFacts {
    pub size: u64,
    pub parts: u64,
    pub newest_epoch: u64,
    pub index_len: u64,
    pub at: u64,
    pub field: u64,
}

/// `clubcard_part_facts`
#[repr(C)]
#[derive(Default)]
pub struct PartFacts {
    pub size: u64,
    pub kind: u64,
    pub epoch: u64,
    pub ranges: u64,
    pub issuers: u64,
    pub at: u64,
    pub field: u64,
    pub trailer: [u8; 32],
}

/// `clubcard_install_facts`
#[repr(C)]
#[derive(Default)]
pub struct InstallFacts {
    pub size: u64,
    pub length: u64,
    pub at: u64,
    pub field: u64,
}

// The sizes that clubcard.h asserts; no struct has a gap.
const _: () = {
    assert!(std::mem::size_of::<Sighting>() == 40);
    assert!(std::mem::size_of::<OneQuery>() == 80);
    assert!(std::mem::size_of::<StoreFacts>() == 48);
    assert!(std::mem::size_of::<PartFacts>() == 88);
    assert!(std::mem::size_of::<InstallFacts>() == 32);
};

extern "C" {
    pub fn clubcard_interface() -> u32;
    pub fn clubcard_index_length(store: *const u8, store_len: usize, words: *mut u64) -> u32;
    pub fn clubcard_open(
        store: *const u8,
        store_len: usize,
        index: *mut u32,
        index_len: usize,
        facts: *mut StoreFacts,
    ) -> u32;
    pub fn clubcard_ask(
        store: *const u8,
        store_len: usize,
        index: *const u32,
        index_len: usize,
        issuer: *const u8,
        serial: *const u8,
        serial_len: usize,
        sightings: *const Sighting,
        sightings_len: usize,
    ) -> u32;
    pub fn clubcard_ask_cert(
        store: *const u8,
        store_len: usize,
        index: *const u32,
        index_len: usize,
        cert: *const u8,
        cert_len: usize,
        issuer_cert: *const u8,
        issuer_cert_len: usize,
    ) -> u32;
    pub fn clubcard_ask_each(
        store: *const u8,
        store_len: usize,
        index: *const u32,
        index_len: usize,
        sightings: *const Sighting,
        sightings_len: usize,
        queries: *mut OneQuery,
        queries_len: usize,
    ) -> u32;
    pub fn clubcard_covered_until(
        store: *const u8,
        store_len: usize,
        index: *const u32,
        index_len: usize,
        log: *const u8,
        until: *mut u64,
    ) -> u32;
    pub fn clubcard_place(
        by: u32,
        issuer: *const u8,
        serial: *const u8,
        serial_len: usize,
        count: u64,
        place: *mut u64,
    ) -> u32;
    pub fn clubcard_check_part(part: *const u8, part_len: usize, facts: *mut PartFacts) -> u32;
    pub fn clubcard_install(
        store: *const u8,
        store_len: usize,
        part: *const u8,
        part_len: usize,
        new_store: *mut u8,
        new_len: usize,
        facts: *mut InstallFacts,
    ) -> u32;
}
