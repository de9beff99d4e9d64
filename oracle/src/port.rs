//! The port's eight calls, as `include/murshogi.h` declares them. `limits` is to three numbers.

unsafe extern "C" {
    pub fn murshogi_check(sheet: *const u8, sheet_len: usize, limits: *const usize) -> u8;
    pub fn murshogi_label_size(
        text: *const u8, text_len: usize, lengths: *const usize, lines: usize, limits: *const usize,
        size: *mut f64,
    ) -> u8;
    pub fn murshogi_layout(
        sheet: *const u8, sheet_len: usize, limits: *const usize, kind: u8, x: *mut f64, x_len: usize,
        y: *mut f64, y_len: usize, size: *mut f64, states: *mut usize,
    ) -> u8;
    pub fn murshogi_route(
        sheet: *const u8, sheet_len: usize, limits: *const usize, x: *const f64, x_len: usize, y: *const f64,
        y_len: usize, records: *mut f64, records_len: usize, text: *mut u8, text_len: usize,
        lengths: *mut usize,
    ) -> u8;
    pub fn murshogi_clutter(
        sheet: *const u8, sheet_len: usize, limits: *const usize, x: *const f64, x_len: usize, y: *const f64,
        y_len: usize, count: *mut usize,
    ) -> u8;
    pub fn murshogi_write_num(v: f64, out: *mut u8, out_len: usize, length: *mut usize) -> u8;
    pub fn murshogi_list(
        sheet: *const u8, sheet_len: usize, limits: *const usize, kind: u8, out: *mut u8, out_len: usize,
        length: *mut usize,
    ) -> u8;
    pub fn murshogi_write_sheet(
        sheet: *const u8, sheet_len: usize, limits: *const usize, out: *mut u8, out_len: usize,
        length: *mut usize,
    ) -> u8;
}
