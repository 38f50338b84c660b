//! The search for a line feed by words of eight bytes, as the proved one, and what any search is.

const LINE_FEED: u8 = b'\n';
const ONES: u64 = u64::from_le_bytes([1; 8]);
const LINE_FEEDS: u64 = u64::from_le_bytes([LINE_FEED; 8]);
const HIGH_BITS: u64 = u64::from_le_bytes([128; 8]);

/// A search for line feeds.
pub trait Search {
    /// The first line feed from byte `from` on.
    fn find_feed(sheet: &[u8], from: usize) -> Option<usize>;
}

pub struct ByWords;

/// 0 if no byte of the word is a line feed; else the lowest set bit stands in the first that is.
fn feed_bits(word: u64) -> u64 {
    let x = word ^ LINE_FEEDS;
    x.wrapping_sub(ONES) & !x & HIGH_BITS
}

impl Search for ByWords {
    fn find_feed(sheet: &[u8], from: usize) -> Option<usize> {
        let mut at = from;
        while let Some(&bytes) = sheet.get(at..).and_then(|rest| rest.first_chunk()) {
            let bits = feed_bits(u64::from_le_bytes(bytes));
            if bits != 0 {
                return Some(at + bits.trailing_zeros() as usize / 8);
            }
            at += 8;
        }
        let place = sheet.get(at..)?.iter().position(|&b| b == LINE_FEED)?;
        Some(at + place)
    }
}
