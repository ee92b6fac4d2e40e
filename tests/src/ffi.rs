//! The exported functions; include/strips.h and tests/common/testing.h say what each answers.

extern "C" {
    // of libdisplay.a, and of libstrips.a too
    pub fn image_inspect(image: *const u8, image_len: usize) -> u64;
    pub fn image_row_rank(image: *const u8, image_len: usize, label: u64, v: u64, i: u64) -> u64;
    pub fn image_row_select(image: *const u8, image_len: usize, label: u64, v: u64, k: u64) -> u64;
    pub fn image_row_get(image: *const u8, image_len: usize, label: u64, i: u64) -> u64;
    pub fn image_row_length(image: *const u8, image_len: usize, label: u64) -> u64;
    pub fn image_row_label(image: *const u8, image_len: usize, k: u64) -> u64;

    // of libstrips.a alone
    pub fn strip_counter_count(capacity: u64) -> u64;
    pub fn strip_create(
        capacity: u64,
        words: *mut u64,
        words_len: usize,
        counters: *mut u32,
        counters_len: usize,
        out: *mut u64,
        out_len: usize,
    );
    pub fn strip_push(
        capacity: u64,
        length: u64,
        total: u64,
        words: *mut u64,
        words_len: usize,
        counters: *mut u32,
        counters_len: usize,
        v: u64,
        out: *mut u64,
        out_len: usize,
    );
    pub fn strip_flip(
        capacity: u64,
        length: u64,
        total: u64,
        words: *mut u64,
        words_len: usize,
        counters: *mut u32,
        counters_len: usize,
        i: u64,
        out: *mut u64,
        out_len: usize,
    );
    pub fn strip_fill(
        capacity: u64,
        length: u64,
        total: u64,
        words: *mut u64,
        words_len: usize,
        counters: *mut u32,
        counters_len: usize,
        a: u64,
        b: u64,
        v: u64,
        out: *mut u64,
        out_len: usize,
    );
    pub fn strip_truncate(
        capacity: u64,
        length: u64,
        total: u64,
        words: *mut u64,
        words_len: usize,
        counters: *mut u32,
        counters_len: usize,
        n: u64,
        out: *mut u64,
        out_len: usize,
    );
    pub fn strip_get(capacity: u64, length: u64, total: u64, words: *const u64, words_len: usize, i: u64) -> u64;
    pub fn strip_rank(
        capacity: u64,
        length: u64,
        total: u64,
        words: *const u64,
        words_len: usize,
        counters: *const u32,
        counters_len: usize,
        v: u64,
        i: u64,
    ) -> u64;
    pub fn strip_select(
        capacity: u64,
        length: u64,
        total: u64,
        words: *const u64,
        words_len: usize,
        counters: *const u32,
        counters_len: usize,
        v: u64,
        k: u64,
    ) -> u64;
    pub fn strip_successor(
        capacity: u64,
        length: u64,
        total: u64,
        words: *const u64,
        words_len: usize,
        v: u64,
        i: u64,
    ) -> u64;
    pub fn strip_predecessor(
        capacity: u64,
        length: u64,
        total: u64,
        words: *const u64,
        words_len: usize,
        v: u64,
        i: u64,
    ) -> u64;
    pub fn strip_burst(
        capacity: u64,
        length: u64,
        total: u64,
        words: *const u64,
        words_len: usize,
        w: u64,
        m: u64,
    ) -> u64;
    pub fn strip_verify(
        capacity: u64,
        length: u64,
        total: u64,
        words: *const u64,
        words_len: usize,
        counters: *const u32,
        counters_len: usize,
    ) -> u64;
    pub fn strip_pair_both(
        first_capacity: u64,
        first_length: u64,
        first_total: u64,
        first: *const u64,
        first_len: usize,
        second_capacity: u64,
        second_length: u64,
        second_total: u64,
        second: *const u64,
        second_len: usize,
        i: u64,
    ) -> u64;
    pub fn strip_pair_either(
        first_capacity: u64,
        first_length: u64,
        first_total: u64,
        first: *const u64,
        first_len: usize,
        second_capacity: u64,
        second_length: u64,
        second_total: u64,
        second: *const u64,
        second_len: usize,
        i: u64,
    ) -> u64;
    pub fn strip_pair_only_first(
        first_capacity: u64,
        first_length: u64,
        first_total: u64,
        first: *const u64,
        first_len: usize,
        second_capacity: u64,
        second_length: u64,
        second_total: u64,
        second: *const u64,
        second_len: usize,
        i: u64,
    ) -> u64;
    pub fn strip_pair_differ(
        first_capacity: u64,
        first_length: u64,
        first_total: u64,
        first: *const u64,
        first_len: usize,
        second_capacity: u64,
        second_length: u64,
        second_total: u64,
        second: *const u64,
        second_len: usize,
        i: u64,
    ) -> u64;
    pub fn strip_pair_find(
        first_capacity: u64,
        first_length: u64,
        first_total: u64,
        first: *const u64,
        first_len: usize,
        second_capacity: u64,
        second_length: u64,
        second_total: u64,
        second: *const u64,
        second_len: usize,
        k: u64,
    ) -> u64;
    pub fn strip_pair_span(
        first_capacity: u64,
        first_length: u64,
        first_total: u64,
        first: *const u64,
        first_len: usize,
        second_capacity: u64,
        second_length: u64,
        second_total: u64,
        second: *const u64,
        second_len: usize,
        a: u64,
        b: u64,
    ) -> i64;
    pub fn strip_waiting_count(
        capacity: u64,
        length: u64,
        total: u64,
        words: *const u64,
        words_len: usize,
        waiting_capacity: u64,
        waiting_length: u64,
        waiting_total: u64,
        waiting: *const u64,
        waiting_len: usize,
        i: u64,
        out: *mut u64,
        out_len: usize,
    );
    pub fn strip_waiting_find(
        capacity: u64,
        length: u64,
        total: u64,
        words: *const u64,
        words_len: usize,
        waiting_capacity: u64,
        waiting_length: u64,
        waiting_total: u64,
        waiting: *const u64,
        waiting_len: usize,
        k: u64,
        out: *mut u64,
        out_len: usize,
    );
    pub fn image_record_size(length: u64) -> u64;
    pub fn image_clear(image: *mut u8, image_len: usize) -> u64;
    pub fn image_freeze(
        capacity: u64,
        length: u64,
        total: u64,
        words: *const u64,
        words_len: usize,
        image: *mut u8,
        image_len: usize,
        label: u64,
    ) -> u64;
    pub fn image_merge(
        first: *const u8,
        first_len: usize,
        second: *const u8,
        second_len: usize,
        third: *mut u8,
        third_len: usize,
    ) -> u64;

    // of libtesting.a
    pub fn strip_select_in_word(x: u64, k: u64) -> u64;
    pub fn image_open(image: *const u8, image_len: usize, label: u64) -> u64;
    pub fn image_part_get(part: *const u8, part_len: usize, length: u64, i: u64) -> u64;
    pub fn image_part_rank(part: *const u8, part_len: usize, length: u64, v: u64, i: u64) -> u64;
    pub fn image_part_select(part: *const u8, part_len: usize, length: u64, v: u64, k: u64) -> u64;
    pub fn image_opened_get(image: *const u8, image_len: usize, label: u64, i: u64) -> u64;
    pub fn image_opened_rank(image: *const u8, image_len: usize, label: u64, v: u64, i: u64) -> u64;
    pub fn image_opened_select(image: *const u8, image_len: usize, label: u64, v: u64, k: u64) -> u64;
    pub fn strip_execute(
        script: *const u64,
        script_len: usize,
        capacity: u64,
        clear_first: u64,
        words: *mut u64,
        words_len: usize,
        counters: *mut u32,
        counters_len: usize,
        image: *mut u8,
        image_len: usize,
        answers: *mut u64,
        answers_len: usize,
    ) -> u64;
    pub fn strip_step(
        op: u64,
        x: u64,
        y: u64,
        z: u64,
        capacity: u64,
        length: u64,
        total: u64,
        words: *mut u64,
        words_len: usize,
        counters: *mut u32,
        counters_len: usize,
        image: *mut u8,
        image_len: usize,
        out: *mut u64,
        out_len: usize,
    );
}
