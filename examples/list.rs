//! Lists a sheet: `list SHEET [KIND] [panel]`. Prints the drawing, or `refused` and the number; with the word `panel` under
//! the service panel's limits, otherwise under the main screen's.

use std::io::Write;

unsafe extern "C" {
    fn murshogi_list(
        sheet: *const u8,
        sheet_len: usize,
        limits: *const usize,
        kind: u8,
        out: *mut u8,
        out_len: usize,
        length: *mut usize,
    ) -> u8;
}

/// States, arrows, lines of an arrow.
type Limits = [usize; 3];
const MAIN_SCREEN: Limits = [64, 256, 8];
const SERVICE_PANEL: Limits = [24, 64, 4];

/// Lists a drawing into `out`: the bytes written, or the number of the refusal.
fn list(sheet: &[u8], limits: Limits, kind: u8, out: &mut [u8]) -> Result<usize, u8> {
    let mut length = 0;
    // Pointers and lengths are of the slices; what is written overlaps nothing.
    let refused = unsafe {
        murshogi_list(
            sheet.as_ptr(),
            sheet.len(),
            limits.as_ptr(),
            kind,
            out.as_mut_ptr(),
            out.len(),
            &mut length,
        )
    };
    if refused == 0 {
        Ok(length)
    } else {
        Err(refused)
    }
}

fn main() {
    let mut args: Vec<String> = std::env::args().collect();
    let mut limits = MAIN_SCREEN;
    if args.len() > 2 && args.last().is_some_and(|word| word == "panel") {
        limits = SERVICE_PANEL;
        args.pop();
    }
    let file = args.get(1).expect("usage: list SHEET [KIND] [panel]");
    // a word that is no number below 256 gives 255, which is refused by 11
    let kind = args.get(2).map_or(0, |k| k.parse().unwrap_or(255));
    let sheet = std::fs::read(file).unwrap_or_else(|e| panic!("{file}: {e}"));
    let mut out = vec![0; 65_536];
    match list(&sheet, limits, kind, &mut out) {
        Ok(length) => std::io::stdout().write_all(&out[..length]).unwrap(),
        Err(n) => {
            println!("refused {n}");
            std::process::exit(1);
        }
    }
}
