//! The reader once more, in which the C library searches for line feeds.

#![allow(unsafe_code)]

use super::feed::Search;
use super::read::read_by;
use super::Refusal;
use std::ffi::{c_int, c_void};

extern "C" {
    fn memchr(bytes: *const c_void, byte: c_int, length: usize) -> *const c_void;
}

struct ByMemchr;

impl Search for ByMemchr {
    fn find_feed(sheet: &[u8], from: usize) -> Option<usize> {
        let rest = sheet.get(from..)?;
        // SAFETY: `rest` is as many bytes long.
        let found = unsafe { memchr(rest.as_ptr().cast(), c_int::from(b'\n'), rest.len()) };
        if found.is_null() {
            return None;
        }
        Some(found as usize - sheet.as_ptr() as usize)
    }
}

/// The reader: how many samples are kept and how many points there are.
#[inline(never)]
pub fn read(
    sheet: &[u8],
    minutes: &mut [u16],
    values: &mut [u16],
    points: &mut [u16],
    bandwidths: &mut [u32],
) -> Result<(usize, usize), Refusal> {
    read_by::<ByMemchr>(sheet, minutes, values, points, bandwidths)
}
