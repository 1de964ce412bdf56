// Four threads of Rust's core and alloc over musl: README.md has how it is compiled.
#![no_std]
#![no_main]
#![feature(alloc_error_handler)]
extern crate alloc;

use alloc::{boxed::Box, format, string::String, vec::Vec};
use core::alloc::{GlobalAlloc, Layout};
use core::ffi::c_void;
use core::ptr::{null, null_mut};
use core::sync::atomic::{AtomicU32, Ordering};

extern "C" {
    fn aligned_alloc(align: usize, bytes: usize) -> *mut u8;
    fn free(at: *mut u8);
    fn abort() -> !;
    fn write(fd: i32, bytes: *const u8, count: usize) -> isize;
    fn pthread_create(made: *mut usize, attr: *const c_void, run: extern "C" fn(*mut c_void) -> *mut c_void, with: *mut c_void) -> i32;
    fn pthread_join(thread: usize, result: *mut *mut c_void) -> i32;
}

struct Musl;

unsafe impl GlobalAlloc for Musl {
    unsafe fn alloc(&self, layout: Layout) -> *mut u8 {
        let align = layout.align().max(8);
        aligned_alloc(align, (layout.size() + align - 1) & !(align - 1))
    }
    unsafe fn dealloc(&self, at: *mut u8, _: Layout) {
        free(at)
    }
}

#[global_allocator]
static MUSL: Musl = Musl;

#[panic_handler]
fn panic(_: &core::panic::PanicInfo) -> ! {
    unsafe { abort() }
}

#[alloc_error_handler]
fn no_memory(_: Layout) -> ! {
    unsafe { abort() }
}

static SUM: AtomicU32 = AtomicU32::new(0);

extern "C" fn run(number: *mut c_void) -> *mut c_void {
    let number = number as u32;
    SUM.fetch_add(number, Ordering::SeqCst);
    let line: Box<String> = Box::new(format!("thread {}: {:.3}\n", number, number as f64 / 3.0));
    Box::into_raw(line) as *mut c_void
}

#[no_mangle]
pub extern "C" fn main() -> i32 {
    let mut threads = Vec::new();
    for number in 1..=4usize {
        let mut made = 0;
        if unsafe { pthread_create(&mut made, null(), run, number as *mut c_void) } != 0 {
            return 1;
        }
        threads.push(made);
    }
    for thread in threads {
        let mut result = null_mut();
        unsafe { pthread_join(thread, &mut result) };
        let line = unsafe { Box::from_raw(result as *mut String) };
        unsafe { write(1, line.as_ptr(), line.len()) };
    }
    let line = format!("sum {}\n", SUM.load(Ordering::SeqCst));
    unsafe { write(1, line.as_ptr(), line.len()) };
    0
}
