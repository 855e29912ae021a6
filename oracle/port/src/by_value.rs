//! The calls by value, from the archive libby_value.a beside libvejupa.a: each answers one number of what the call hands back.

mod foreign {
    #[link(name = "by_value", kind = "static")]
    unsafe extern "C" {
        pub fn by_value_parse_qrydsc(data: *const u8, data_length: usize, index: u64) -> u64;
        pub fn by_value_count_columns(data: *const u8, data_length: usize) -> u64;
        pub fn by_value_broken_off(data: *const u8, data_length: usize) -> u64;
        pub fn by_value_parse_whole_qrydsc(data: *const u8, data_length: usize, index: u64) -> u64;
        pub fn by_value_whole_number(data: *const u8, data_length: usize) -> u64;
        pub fn by_value_decode_row(
            described: *const u8,
            described_length: usize,
            row: *const u8,
            row_length: usize,
            release: u32,
            text: *mut u8,
            text_length: usize,
            rounds: u64,
            index: u64,
        ) -> u64;
        pub fn by_value_replaced(
            described: *const u8,
            described_length: usize,
            row: *const u8,
            row_length: usize,
            release: u32,
            text: *mut u8,
            text_length: usize,
        ) -> u64;
    }
}

// SAFETY, for all calls: the slices are borrowed for the whole call, the text apart from the others, and the library reads and writes inside of them
// only, which is proved of it.

/// The length of the column at a place of the list, below its 128.
pub fn length_at(data: &[u8], index: usize) -> u64 {
    unsafe { foreign::by_value_parse_qrydsc(data.as_ptr(), data.len(), index as u64) }
}

/// How many columns there are.
pub fn count(data: &[u8]) -> u64 {
    unsafe { foreign::by_value_count_columns(data.as_ptr(), data.len()) }
}

/// 1 where parse_qrydsc accepts and says broken off, else 0.
pub fn broken_off(data: &[u8]) -> u64 {
    unsafe { foreign::by_value_broken_off(data.as_ptr(), data.len()) }
}

/// The length of the column at a place of parse_whole_qrydsc's list, below its 128: 0 at a blank one.
pub fn whole_length_at(data: &[u8], index: usize) -> u64 {
    unsafe { foreign::by_value_parse_whole_qrydsc(data.as_ptr(), data.len(), index as u64) }
}

/// What parse_whole_qrydsc answers: 0, or the refusal's number.
pub fn whole_number(data: &[u8]) -> u64 {
    unsafe { foreign::by_value_whole_number(data.as_ptr(), data.len()) }
}

/// The number of the value at a place of a row's answer, below its 128: the row is decoded `times` times, at least once.
pub fn number_at(
    described: &[u8],
    row: &[u8],
    release: u32,
    text: &mut [u8],
    times: usize,
    index: usize,
) -> u64 {
    unsafe {
        foreign::by_value_decode_row(
            described.as_ptr(),
            described.len(),
            row.as_ptr(),
            row.len(),
            release,
            text.as_mut_ptr(),
            text.len(),
            times as u64 - 1,
            index as u64,
        )
    }
}

/// How many characters were replaced in a row's texts.
pub fn replaced(described: &[u8], row: &[u8], release: u32, text: &mut [u8]) -> u64 {
    unsafe {
        foreign::by_value_replaced(
            described.as_ptr(),
            described.len(),
            row.as_ptr(),
            row.len(),
            release,
            text.as_mut_ptr(),
            text.len(),
        )
    }
}
