//! The static library's functions as its header declares them.
//!
//! A result's low byte is the number, its next byte the place, its upper 16
//! bits the count where a call returns one, or the file at fault of a merge, or the
//! place of a refused plan. A fold counts up to 512 records there.
//! `include/sab.h` is the manual.

#![allow(unsafe_code)]

unsafe extern "C" {
    pub fn sab_start(
        log: *mut u8,
        log_len: usize,
        base: *mut u8,
        base_len: usize,
        index: *mut u8,
        index_len: usize,
        archive: u32,
        unit: u32,
    ) -> u32;

    pub fn sab_act(
        log: *mut u8,
        log_len: usize,
        base: *const u8,
        base_len: usize,
        index: *mut u8,
        index_len: usize,
        archive: u32,
        unit: u32,
        wish: *const u8,
        wish_len: usize,
        work: *mut u8,
        work_len: usize,
    ) -> u32;

    pub fn sab_hand_out(
        log: *const u8,
        log_len: usize,
        base: *const u8,
        base_len: usize,
        archive: u32,
        unit: u32,
        asked: *const u8,
        asked_len: usize,
        block: *mut u8,
        block_len: usize,
    ) -> u32;

    pub fn sab_take(
        log: *mut u8,
        log_len: usize,
        base: *const u8,
        base_len: usize,
        index: *mut u8,
        index_len: usize,
        archive: u32,
        unit: u32,
        block: *const u8,
        block_len: usize,
        work: *mut u8,
        work_len: usize,
    ) -> u32;

    pub fn sab_hand_out_row(
        log: *const u8,
        log_len: usize,
        base: *const u8,
        base_len: usize,
        archive: u32,
        unit: u32,
        asked: *const u8,
        asked_len: usize,
        row: *mut u8,
        row_len: usize,
    ) -> u32;

    pub fn sab_take_row(
        log: *mut u8,
        log_len: usize,
        base: *const u8,
        base_len: usize,
        index: *mut u8,
        index_len: usize,
        archive: u32,
        unit: u32,
        row: *const u8,
        row_len: usize,
        work: *mut u8,
        work_len: usize,
    ) -> u32;

    pub fn sab_try(
        log: *const u8,
        log_len: usize,
        base: *const u8,
        base_len: usize,
        archive: u32,
        unit: u32,
        row: *const u8,
        row_len: usize,
        copy: *mut u8,
        copy_len: usize,
        tree: *mut u8,
        tree_len: usize,
        report: *mut u8,
        report_len: usize,
    ) -> u32;

    pub fn sab_fold(
        log: *mut u8,
        log_len: usize,
        base: *mut u8,
        base_len: usize,
        archive: u32,
        unit: u32,
        list: u32,
        work: *mut u8,
        work_len: usize,
    ) -> u32;

    pub fn sab_check_order(
        log: *const u8,
        log_len: usize,
        base: *const u8,
        base_len: usize,
        list: *const u8,
        list_len: usize,
        ours: *mut u8,
        ours_len: usize,
        theirs: *mut u8,
        theirs_len: usize,
    ) -> u32;

    pub fn sab_write_file(
        log: *const u8,
        log_len: usize,
        base: *const u8,
        base_len: usize,
        archive: u32,
        unit: u32,
        file: *mut u8,
        file_len: usize,
    ) -> u32;

    pub fn sab_write_sab2(
        log: *const u8,
        log_len: usize,
        base: *const u8,
        base_len: usize,
        archive: u32,
        unit: u32,
        file: *mut u8,
        file_len: usize,
    ) -> u32;

    pub fn sab_read_file(
        log: *mut u8,
        log_len: usize,
        base: *mut u8,
        base_len: usize,
        file: *const u8,
        file_len: usize,
        head: *mut u8,
        head_len: usize,
    ) -> u32;

    pub fn sab_to_sab2(
        file: *const u8,
        file_len: usize,
        out: *mut u8,
        out_len: usize,
    ) -> u32;

    pub fn sab_to_sab1(
        file: *const u8,
        file_len: usize,
        out: *mut u8,
        out_len: usize,
    ) -> u32;

    pub fn sab_merge(
        first: *const u8,
        first_len: usize,
        second: *const u8,
        second_len: usize,
        log: *mut u8,
        log_len: usize,
        file: *mut u8,
        file_len: usize,
    ) -> u32;

    pub fn sab_show(
        log: *const u8,
        log_len: usize,
        base: *const u8,
        base_len: usize,
        tree: *mut u8,
        tree_len: usize,
    ) -> u32;

    pub fn sab_index(
        log: *const u8,
        log_len: usize,
        base: *const u8,
        base_len: usize,
        index: *mut u8,
        index_len: usize,
        work: *mut u8,
        work_len: usize,
    ) -> u32;

    pub fn sab_find(
        index: *const u8,
        index_len: usize,
        unit: u32,
        number: u32,
        label: *const u8,
        label_len: usize,
    ) -> u32;

    pub fn sab_list(
        index: *const u8,
        index_len: usize,
        unit: u32,
        number: u32,
        range: *mut u8,
        range_len: usize,
    ) -> u32;

    pub fn sab_vector(
        log: *const u8,
        log_len: usize,
        base: *const u8,
        base_len: usize,
        vector: *mut u8,
        vector_len: usize,
    ) -> u32;

    pub fn sab_compare(
        first: *const u8,
        first_len: usize,
        second: *const u8,
        second_len: usize,
        lacks: *mut u8,
        lacks_len: usize,
    ) -> u32;

    pub fn sab_listing(
        file: *const u8,
        file_len: usize,
        log: *mut u8,
        log_len: usize,
        base: *mut u8,
        base_len: usize,
        tree: *mut u8,
        tree_len: usize,
        out: *mut u8,
        out_len: usize,
        length: *mut u8,
        length_len: usize,
    ) -> u32;

    pub fn sab_try_plan(
        plan: *const u8,
        plan_len: usize,
        logs: *mut u8,
        logs_len: usize,
        base: *mut u8,
        base_len: usize,
        work: *mut u8,
        work_len: usize,
        text: *mut u8,
        text_len: usize,
        length: *mut u8,
        length_len: usize,
    ) -> u32;
}
