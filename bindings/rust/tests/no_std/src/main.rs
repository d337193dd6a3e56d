//! Reads a stream without the standard library. It has a panic handler of its own, so that it does not build where the crate brings in that
//! library, which has one too.
#![no_std]
#![no_main]

#[link(name = "c")]
extern "C" {
    fn abort() -> !;
}

#[panic_handler]
fn stop(_: &core::panic::PanicInfo) -> ! {
    unsafe { abort() }
}

/// The compiled core library asks for it; nothing here unwinds.
#[no_mangle]
extern "C" fn rust_eh_personality() {}

/// Ends with 0 where the answers are right.
#[no_mangle]
extern "C" fn main() -> i32 {
    let mut index = [0; 8];
    let read = tockplover::stream::read(&[0, 1, 2, 8], 0, &[1, 1, 42, 3, 0], &mut index);
    let refusal = tockplover::stream::count(&[], 0, &[1, 5]);
    match (read, refusal) {
        (Ok(stream), Err(refusal)) if stream.records().next().is_some_and(|record| record.value == [42]) && lacks_five(&refusal) => 0,
        _ => 1,
    }
}

/// Whether a refusal says that five bytes of a value are missing.
fn lacks_five(refusal: &tockplover::Refusal) -> bool {
    (refusal.number, refusal.missing) == (6, 5) && refusal.lack().is_some()
}
