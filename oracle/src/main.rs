//! The oracle: the Rust that Murshogi ports, with document 01's stand-ins, and what is made from
//! its answers. README.md says how each part is run.

mod bench;
mod calls;
#[cfg(port = "murshogi")]
mod compare;
mod counted;
mod differ;
mod generate;
mod graph;
mod layout;
#[cfg(port = "murshogi")]
mod port;
mod random;
#[cfg(all(port = "murshogi", not(test)))]
mod rivals;
mod root;
mod route;
mod sheet;
mod standin;
mod svg;
mod vectors;

use sheet::{Limits, MAIN_SCREEN, SERVICE_PANEL};

fn main() {
    let args: Vec<String> = std::env::args().skip(1).collect();
    let words: Vec<&str> = args.iter().map(String::as_str).collect();
    match words.as_slice() {
        ["vectors", file] => vectors::write(file),
        ["bench", "root"] => bench::roots(),
        #[cfg(port = "murshogi")]
        ["bench", "check"] => bench::check(),
        #[cfg(port = "probes")]
        ["bench", "angles"] => bench::angles(),
        #[cfg(port = "probes")]
        ["compare", "remainders", count, seed] => bench::remainders(count.parse().unwrap(), seed.parse().unwrap()),
        ["differ", "route", count, seed] => differ::routings(count.parse().unwrap(), seed.parse().unwrap()),
        ["differ", "layout", count, seed] => differ::layouts(count.parse().unwrap(), seed.parse().unwrap()),
        ["list", kind] => list(kind, MAIN_SCREEN),
        ["list", kind, "panel"] => list(kind, SERVICE_PANEL),
        ["save"] => answer(|sheet| calls::write_sheet(sheet, MAIN_SCREEN, 65_536)),
        #[cfg(all(port = "murshogi", not(test)))]
        ["bench", "calls"] => bench::calls::print(),
        #[cfg(all(port = "murshogi", not(test)))]
        ["bench", "counts"] => bench::counts::print(),
        #[cfg(all(port = "murshogi", not(test)))]
        ["bench", "each"] => bench::counts::each(),
        #[cfg(all(port = "murshogi", not(test)))]
        ["bench", "search"] => bench::search::print(),
        #[cfg(all(port = "murshogi", not(test)))]
        ["bench", "routed", name] => bench::search::routed(name),
        #[cfg(all(port = "murshogi", not(test)))]
        ["bench", "saved"] => bench::saved::print(),
        #[cfg(all(port = "murshogi", not(test)))]
        ["bench", "saved-each"] => bench::saved::each(),
        #[cfg(all(port = "murshogi", not(test)))]
        ["bench", "stack"] => bench::stack::print(),
        #[cfg(all(port = "murshogi", not(test)))]
        ["bench", "sheet", name] => bench::calls::sheet_of(name),
        #[cfg(port = "murshogi")]
        ["compare", "routings", count, seed] => compare::routings(count.parse().unwrap(), seed.parse().unwrap()),
        #[cfg(port = "murshogi")]
        ["compare", "layouts", count, seed] => compare::layouts(count.parse().unwrap(), seed.parse().unwrap()),
        #[cfg(port = "murshogi")]
        ["compare", "listings", count, seed] => compare::listings(count.parse().unwrap(), seed.parse().unwrap()),
        #[cfg(port = "murshogi")]
        ["compare", "labels", count, seed] => compare::labels(count.parse().unwrap(), seed.parse().unwrap()),
        #[cfg(port = "murshogi")]
        ["compare", "sheets", count, seed] => compare::sheets(count.parse().unwrap(), seed.parse().unwrap()),
        #[cfg(port = "murshogi")]
        ["compare", "limits", count, seed] => compare::limits(count.parse().unwrap(), seed.parse().unwrap()),
        #[cfg(port = "murshogi")]
        ["compare"] => compare::run(15_000, 5),
        #[cfg(port = "murshogi")]
        ["compare", turns, seed] => compare::run(turns.parse().unwrap(), seed.parse().unwrap()),
        _ => {
            eprintln!("usage: oracle vectors FILE | differ (route | layout) COUNT SEED | bench (root | angles | check | calls | counts | search | saved | stack | sheet NAME) | list KIND [panel] < SHEET | save < SHEET | compare [[routings | layouts | listings | labels | sheets | limits | remainders] COUNT SEED]");
            std::process::exit(2);
        }
    }
}

/// Prints the listing of the sheet in standard input.
fn list(kind: &str, limits: Limits) {
    answer(|sheet| calls::list(sheet, limits, kind.parse().unwrap_or(255), 65_536));
}

/// Prints what a call writes of the sheet in standard input: its listing, or the sheet as it is saved.
fn answer(call: impl Fn(&[u8]) -> Result<Vec<u8>, u8>) {
    use std::io::{Read, Write};
    let mut sheet = Vec::new();
    std::io::stdin().read_to_end(&mut sheet).unwrap();
    let written = call(&sheet).unwrap_or_else(|n| format!("refused {n}\n").into_bytes());
    std::io::stdout().write_all(&written).unwrap();
}
