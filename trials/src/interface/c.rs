//! The functions of include/mastpickle.h.

extern "C" {
    pub fn mastpickle_new(n: u64, graph: *mut u64, graph_words: usize) -> u64;
    pub fn mastpickle_check_sound(graph: *const u64, graph_words: usize) -> u64;
    pub fn mastpickle_check_call(graph: *const u64, graph_words: usize, k: u64) -> u64;
    pub fn mastpickle_decode(
        bytes: *const u8,
        length: usize,
        graph: *mut u64,
        graph_words: usize,
        answer: *mut u64,
        answer_words: usize,
    ) -> u64;
    pub fn mastpickle_encode(
        graph: *const u64,
        graph_words: usize,
        out: *mut u8,
        out_bytes: usize,
        answer: *mut u64,
        answer_words: usize,
    ) -> u64;
    pub fn mastpickle_classify(
        graph: *const u64,
        graph_words: usize,
        k: u64,
        set: u64,
        answer: *mut u64,
        answer_words: usize,
    ) -> u64;
    pub fn mastpickle_reduce(
        graph: *const u64,
        graph_words: usize,
        k: u64,
        reduced: *mut u64,
        reduced_words: usize,
        answer: *mut u64,
        answer_words: usize,
    ) -> u64;
    pub fn mastpickle_list_page(
        graph: *const u64,
        graph_words: usize,
        k: u64,
        kind: u64,
        set: u64,
        out: *mut u8,
        out_bytes: usize,
        answer: *mut u64,
        answer_words: usize,
    ) -> u64;
    pub fn mastpickle_largest(
        graph: *const u64,
        graph_words: usize,
        k: u64,
        answer: *mut u64,
        answer_words: usize,
    ) -> u64;
    pub fn mastpickle_record_at(
        listing: *const u8,
        listing_bytes: usize,
        i: u64,
        answer: *mut u64,
        answer_words: usize,
    ) -> u64;
    pub fn mastpickle_count(
        graph: *const u64,
        graph_words: usize,
        k: u64,
        sets: *const u64,
        sets_length: usize,
        counts: *mut u64,
        counts_length: usize,
    ) -> u64;
}
