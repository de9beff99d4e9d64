//! Instructions of each call, counted by callgrind.

use std::hint::black_box;
use std::process::{Command, Stdio};

use super::calls::{CALLS, SIDES, cases, table};

/// Callgrind counts what this function and those below it execute, and notes the sum where it returns.
#[unsafe(no_mangle)]
#[inline(never)]
pub fn murshogi_counted(f: &mut dyn FnMut() -> u8) {
    assert!(black_box(f()) == 0);
}

/// Every sheet, call and side, each once before it is counted, so that its memory is there.
pub fn each() {
    for mut case in cases() {
        for (call, _) in CALLS {
            for side in SIDES {
                case.run(side, call);
                murshogi_counted(&mut || case.run(side, call));
            }
        }
    }
}

/// What callgrind writes of `oracle bench` with these words.
pub fn callgrind(options: &[&str], words: &[&str]) -> String {
    let file = std::env::temp_dir().join(format!("murshogi-counts-{}", std::process::id()));
    let status = Command::new("valgrind")
        .args(["--tool=callgrind", "--toggle-collect=murshogi_counted", "--dump-line=no"])
        .args(options)
        .arg(format!("--callgrind-out-file={}", file.display()))
        .arg(std::env::current_exe().unwrap())
        .arg("bench")
        .args(words)
        .stderr(Stdio::null())
        .status()
        .expect("valgrind is run");
    assert!(status.success(), "valgrind failed");
    let text = std::fs::read_to_string(&file).unwrap();
    std::fs::remove_file(&file).unwrap();
    text
}

/// The counts of a run of `oracle bench` with this word, one for each call of [`murshogi_counted`].
pub fn counted(word: &str) -> Vec<f64> {
    callgrind(&["--dump-after=murshogi_counted", "--combine-dumps=yes"], &[word])
        .lines()
        .filter_map(|l| l.strip_prefix("totals: "))
        .map(|n| n.trim().parse().unwrap())
        .filter(|n| *n > 0.0)
        .collect()
}

/// The table of counts.
pub fn print() {
    let list = counted("each");
    assert!(list.len() == 3 * CALLS.len() * SIDES.len(), "{} counts", list.len());
    table("thousands", |i, j| {
        let at = (i * CALLS.len() + j) * SIDES.len();
        std::array::from_fn(|k| list[at + k] / 1000.0)
    });
}
