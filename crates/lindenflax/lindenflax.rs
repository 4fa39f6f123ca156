//! The functions of lindenflax.h, for Rust: link with `-L crates/lindenflax/out -l static=lindenflax`, for x86-64 (`rt lib` in crates/lindenflax writes the library).
//! lindenflax.h says what each of them does, what the numbers of a state and of an answer are, and what is returned.
extern "C" {
    pub fn lindenflax_reset(state: *mut i32, state_len: usize) -> u8;
    pub fn lindenflax_step(
        acf: *const i32, acf_len: usize, lags: *const u16, lags_len: usize, scale: i16,
        state: *mut i32, state_len: usize, answer: *mut i32, answer_len: usize,
    ) -> u8;
    pub fn lindenflax_downlink(
        acf: *const i32, acf_len: usize, lags: *const u16, lags_len: usize, scale: i16, samples: *const i16, samples_len: usize,
        state: *mut i32, state_len: usize, answer: *mut i32, answer_len: usize,
    ) -> u8;
    pub fn lindenflax_read_line(
        line: *const u8, line_len: usize, acf: *mut i32, acf_len: usize, lags: *mut u16, lags_len: usize,
        scale: *mut i16, scale_len: usize,
    ) -> u8;
    pub fn lindenflax_write_line(
        acf: *const i32, acf_len: usize, lags: *const u16, lags_len: usize, scale: i16, line: *mut u8, line_len: usize,
    ) -> u8;
}
