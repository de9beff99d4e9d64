//! The stack that each call takes: it runs on painted memory, and what is painted over is counted.

use std::ffi::c_void;
use std::hint::black_box;
use std::sync::atomic::{AtomicUsize, Ordering};

use super::calls::{CALLS, Case, cases, figure};

/// The stack pointer where the port was last called from: what lies below it is the port's.
static CALLED: AtomicUsize = AtomicUsize::new(0);

/// Notes the stack pointer of the function that it is written into, which is the same all through that function.
#[inline(always)]
pub fn mark() {
    let pointer: usize;
    unsafe { std::arch::asm!("mov {}, rsp", out(reg) pointer, options(nomem, nostack, preserves_flags)) };
    CALLED.store(pointer, Ordering::Relaxed);
}

const ROOM: usize = 8 << 20;
const PAINT: u8 = 0xa5;

unsafe extern "C" {
    fn pthread_attr_init(attr: *mut u64) -> i32;
    fn pthread_attr_setstack(attr: *mut u64, low: *mut u8, size: usize) -> i32;
    fn pthread_create(
        thread: *mut usize, attr: *const u64, run: extern "C" fn(*mut c_void) -> *mut c_void, with: *mut c_void,
    ) -> i32;
    fn pthread_join(thread: usize, answer: *mut *mut c_void) -> i32;
}

struct Job<'a> {
    f: &'a mut dyn FnMut() -> u8,
}

extern "C" fn work(job: *mut c_void) -> *mut c_void {
    let job = unsafe { &mut *job.cast::<Job>() };
    assert!(black_box((job.f)()) == 0);
    std::ptr::null_mut()
}

/// How far below the place where it calls the port `f` paints over.
fn depth(f: &mut dyn FnMut() -> u8) -> usize {
    let layout = std::alloc::Layout::from_size_align(ROOM, 4096).unwrap();
    let mut job = Job { f };
    unsafe {
        let low = std::alloc::alloc(layout);
        low.write_bytes(PAINT, ROOM);
        let (mut attr, mut thread) = ([0_u64; 16], 0);
        assert!(pthread_attr_init(attr.as_mut_ptr()) == 0);
        assert!(pthread_attr_setstack(attr.as_mut_ptr(), low, ROOM) == 0);
        assert!(pthread_create(&mut thread, attr.as_ptr(), work, (&raw mut job).cast()) == 0);
        assert!(pthread_join(thread, std::ptr::null_mut()) == 0);
        let clean = std::slice::from_raw_parts(low, ROOM).iter().take_while(|b| **b == PAINT).count();
        std::alloc::dealloc(low, layout);
        CALLED.load(Ordering::Relaxed) - (low.addr() + clean)
    }
}

/// Bytes of stack of the port's calls, on each sheet.
pub fn print() {
    let mut cases = cases();
    println!("| call | {} |", cases.iter().map(|c| c.name).collect::<Vec<_>>().join(" | "));
    println!("|---|---|---|---|");
    for (call, name) in CALLS {
        let bytes = |c: &mut Case| figure(depth(&mut || c.port(call)) as f64);
        println!("| {name} | {} |", cases.iter_mut().map(bytes).collect::<Vec<_>>().join(" | "));
    }
}
