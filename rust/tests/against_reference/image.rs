//! Images of eight pages, into which a request's entries are laid.

use crate::common::{set, Random};
use galitzaf::Window;

/// Pages of an image.
pub const PAGES: u64 = 8;

/// The image's length: eight pages, or one that cuts into them.
pub fn length(random: &mut Random) -> usize {
    let whole = PAGES << 12;
    let cut = whole - random.below(whole);
    random.pick(&[whole, whole, whole, whole, cut, cut & !7, 0]) as usize
}

/// Now and then, a bit turned over.
fn scratched(random: &mut Random, word: u64) -> u64 {
    match random.below(20) {
        0 => word ^ 1 << random.below(64),
        _ => word,
    }
}

/// Writes an entry of some words at an address, as far as the image has it.
pub fn put(random: &mut Random, image: &mut [u8], address: u64, words: &[u64]) {
    for (&word, n) in words.iter().zip(0..) {
        let word = scratched(random, word);
        let place = address.saturating_add(8 * n);
        if place <= (PAGES << 12) - 8 {
            set(image, place as usize, word);
        }
    }
}

/// The address of one of the pages.
pub fn page(random: &mut Random) -> u64 {
    random.below(PAGES) << 12
}

/// An image cut into windows, whose parts of the run stand the other way round: at most four, some
/// without their last bytes, now and then one too many.
pub fn cut(random: &mut Random, image: &[u8]) -> (Vec<Window>, Vec<u8>) {
    let mut pages: Vec<usize> = (0..image.len().div_ceil(4096)).collect();
    while pages.len() > 4 && random.below(50) != 0 {
        let one = random.below(pages.len() as u64 - 1) as usize;
        pages.remove(1 + one);
    }
    let mut windows = Vec::new();
    let mut run = Vec::new();
    for (n, &page) in pages.iter().enumerate().rev() {
        let end = pages.get(n + 1).map_or(image.len(), |next| 4096 * next);
        let part = &image[4096 * page..end];
        let less = random.pick(&[0, 0, 0, 1, 9]).min(part.len() - 1);
        let part = &part[..part.len() - less];
        windows.push(Window {
            start: 4096 * page as u64,
            offset: run.len() as u64,
            length: part.len() as u64,
        });
        run.extend_from_slice(part);
    }
    windows.reverse();
    (windows, run)
}

/// The same windows in the reference's form.
pub fn theirs(windows: &[Window]) -> Vec<reference::Window> {
    let theirs = windows.iter().map(|window| reference::Window {
        start: window.start,
        from: window.offset,
        length: window.length,
    });
    theirs.collect()
}
