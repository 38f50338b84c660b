//! A program without `std`, with a panic handler of its own. tests/link compiles it: where the crate took `std` in, there would be two handlers.

#![no_std]
#![no_main]

#[panic_handler]
fn panic(_: &core::panic::PanicInfo) -> ! {
    loop {}
}

/// What a C start-up calls.
#[no_mangle]
pub extern "C" fn main() -> i32 {
    i32::from(tankcurve::version() != tankcurve::VERSION)
}
