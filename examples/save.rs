//! Saves a sheet and lists it again: `save SHEET SAVED`. Writes the sheet to the file SAVED as the editor does, and
//! prints the drawing of what it wrote, laid out as Auto; or prints `refused` and the number, and writes no file. Both under
//! the main screen's limits.

use std::io::Write;

unsafe extern "C" {
    fn murshogi_write_sheet(
        sheet: *const u8,
        sheet_len: usize,
        limits: *const usize,
        out: *mut u8,
        out_len: usize,
        length: *mut usize,
    ) -> u8;
    fn murshogi_list(
        sheet: *const u8,
        sheet_len: usize,
        limits: *const usize,
        kind: u8,
        out: *mut u8,
        out_len: usize,
        length: *mut usize,
    ) -> u8;
}

/// States, arrows, lines of an arrow.
const MAIN_SCREEN: [usize; 3] = [64, 256, 8];

/// What a call writes into so much room, or the number of the refusal.
fn written(room: usize, call: impl Fn(*mut u8, usize, *mut usize) -> u8) -> Result<Vec<u8>, u8> {
    let (mut out, mut length) = (vec![0; room], 0);
    match call(out.as_mut_ptr(), out.len(), &mut length) {
        0 => {
            out.truncate(length);
            Ok(out)
        }
        refused => Err(refused),
    }
}

/// The sheet as the editor saves it. It is never longer.
fn write_sheet(sheet: &[u8]) -> Result<Vec<u8>, u8> {
    // Pointers and lengths are of the slices; what is written overlaps nothing.
    written(sheet.len(), |out, room, length| unsafe {
        murshogi_write_sheet(sheet.as_ptr(), sheet.len(), MAIN_SCREEN.as_ptr(), out, room, length)
    })
}

fn list(sheet: &[u8]) -> Result<Vec<u8>, u8> {
    // MURSHOGI_LISTING: the most bytes that a listing has.
    written(112_578, |out, room, length| unsafe {
        murshogi_list(sheet.as_ptr(), sheet.len(), MAIN_SCREEN.as_ptr(), 0, out, room, length)
    })
}

fn main() {
    let args: Vec<String> = std::env::args().collect();
    let [_, file, saved] = args.as_slice() else {
        panic!("usage: save SHEET SAVED")
    };
    let sheet = std::fs::read(file).unwrap_or_else(|e| panic!("{file}: {e}"));
    let bytes = write_sheet(&sheet).unwrap_or_else(|n| {
        println!("refused {n}");
        std::process::exit(1)
    });
    std::fs::write(saved, &bytes).unwrap_or_else(|e| panic!("{saved}: {e}"));
    match list(&bytes) {
        Ok(text) => std::io::stdout().write_all(&text).unwrap(),
        Err(n) => {
            println!("saved, but the drawing is refused {n}");
            std::process::exit(1);
        }
    }
}
