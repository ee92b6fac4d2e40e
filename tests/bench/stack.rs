//! Calls from many places of the stack: the time of a function that keeps an array on its stack, as a turn does, depends on
//! where in a cache line and in a page the stack lies.
use std::hint::black_box;

/// The places are spread over so many bytes.
const PAGE: usize = 4096;

/// So many calls are from all parts of a cache line.
const PLACES: usize = 32;

/// Makes the calls, numbered from 0, from places of the stack that are spread over a page, and, where they are many, over the
/// four parts of 16 bytes of a cache line.
pub fn spread(count: usize, mut call: impl FnMut(usize)) {
    let (local, mut parts) = (black_box([0u8; 64]), [false; 4]);
    let top = black_box(&local).as_ptr() as usize;
    for number in 0..count {
        deeper(top, PAGE + PAGE * number / count, &mut |here| {
            parts[here / 16 % 4] = true;
            call(number)
        });
    }
    assert!(count < PLACES || parts == [true; 4], "stacks of one place in a cache line");
}

/// Makes the call with at least so many more bytes of stack in use than at the address `top`; it is told an address there.
#[inline(never)]
fn deeper(top: usize, bytes: usize, call: &mut dyn FnMut(usize)) {
    let local = black_box([0u8; 64]);
    let here = black_box(&local).as_ptr() as usize;
    if top - here < bytes {
        deeper(top, bytes, call);
    } else {
        call(here);
    }
    black_box(&local);
}
