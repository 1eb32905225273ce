//! The calls of the archives as `include/legging.h` declares them, for a host that holds
//! raw memory. The safe calls of this crate are over them.
//!
//! # Safety
//!
//! Of every call: each pointer is valid for its length, to be read where it is `const` and
//! to be read and written where it is `mut`; with the length 0 it may be null. What is
//! written overlaps nothing else of the same call, and no other thread uses it meanwhile.

extern "C" {
    /// As [`run`](crate::run).
    pub fn legging_run(
        messages: *const u8,
        messages_len: usize,
        report: *mut u8,
        report_len: usize,
    ) -> u8;

    /// As [`feed`](crate::feed).
    pub fn legging_feed(
        main: *const u8,
        main_len: usize,
        spare: *const u8,
        spare_len: usize,
        report: *mut u8,
        report_len: usize,
    ) -> u8;

    /// As [`fresh_in`](crate::fresh_in).
    pub fn legging_fresh(venue: *mut u8, venue_len: usize) -> u8;

    /// As [`one_message_in`](crate::one_message_in).
    pub fn legging_message(
        venue: *mut u8,
        venue_len: usize,
        before: u32,
        message: *const u8,
        message_len: usize,
        report: *mut u8,
        report_len: usize,
    ) -> u8;

    /// As [`settings_in`](crate::settings_in).
    pub fn legging_settings(
        venue: *const u8,
        venue_len: usize,
        number: u32,
        settings: *mut u8,
        settings_len: usize,
    ) -> u8;

    /// As [`write_set_in`](crate::write_set_in).
    pub fn legging_write_set(
        venue: *const u8,
        venue_len: usize,
        number: u32,
        set: *mut u8,
        set_len: usize,
        written: *mut u8,
        written_len: usize,
    ) -> u8;

    /// As [`read_set_in`](crate::read_set_in).
    pub fn legging_read_set(
        set: *const u8,
        set_len: usize,
        venue: *mut u8,
        venue_len: usize,
        number: *mut u8,
        number_len: usize,
    ) -> u8;

    /// As [`layer_fresh_in`](crate::layer_fresh_in).
    pub fn legging_layer_fresh(layer: *mut u8, layer_len: usize) -> u8;

    /// As [`arrive_in`](crate::arrive_in).
    pub fn legging_arrive(
        layer: *mut u8,
        layer_len: usize,
        venue: u32,
        message: *const u8,
        message_len: usize,
    ) -> u8;

    /// As [`turn_in`](crate::turn_in).
    pub fn legging_turn(
        layer: *mut u8,
        layer_len: usize,
        report: *mut u8,
        report_len: usize,
    ) -> u32;
}
