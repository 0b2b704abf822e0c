//! The image: none to four windows onto one lent run of bytes (Ask 9).
//!
//! The image of document 01, where byte n is host address n, is one window from
//! 0, and no window where it has no byte.

/// A window: a part of the lent run, and the host address at which it starts.
#[derive(Clone, Copy, Debug, PartialEq, Eq)]
pub struct Window {
    /// Host start.
    pub start: u64,
    /// Where its part of the run begins.
    pub from: u64,
    /// How many bytes its part of the run has.
    pub length: u64,
}

impl Window {
    /// The host address after its last byte, which may be 2^64.
    fn end(&self) -> u128 {
        u128::from(self.start) + u128::from(self.length)
    }

    /// The place in the run after its last byte.
    fn run_end(&self) -> u128 {
        u128::from(self.from) + u128::from(self.length)
    }
}

/// Windows and the run they are onto.
#[derive(Clone, Copy, Debug)]
pub struct Image<'a> {
    /// The windows, good or bad.
    pub windows: &'a [Window],
    /// The run.
    pub run: &'a [u8],
}

/// The old image: one window from 0.
pub fn whole(image: &[u8]) -> Vec<Window> {
    if image.is_empty() {
        return Vec::new();
    }
    vec![Window {
        start: 0,
        from: 0,
        length: image.len() as u64,
    }]
}

/// The windows' part of number 1.
pub fn bad_windows(image: Image) -> bool {
    let Image { windows, run } = image;
    // None to four windows,
    if windows.len() > 4 {
        return true;
    }
    for window in windows {
        // each with a host start, a multiple of 4096,
        if window.start / 4096 * 4096 != window.start {
            return true;
        }
        // and a non-empty part of the one lent run,
        if window.length == 0 {
            return true;
        }
        // (or an end past the run or 2^64)
        if window.run_end() > run.len() as u128 || window.end() > 1u128 << 64 {
            return true;
        }
    }
    for (n, later) in windows.iter().enumerate() {
        for earlier in &windows[..n] {
            // sorted by start,
            if earlier.start > later.start {
                return true;
            }
            // overlapping neither in host addresses
            let host_apart = earlier.end() <= u128::from(later.start)
                || later.end() <= u128::from(earlier.start);
            // nor in the run;
            let run_apart = earlier.run_end() <= u128::from(later.from)
                || later.run_end() <= u128::from(earlier.from);
            if !host_apart || !run_apart {
                return true;
            }
        }
    }
    false
}

/// Where in the run the `width` bytes at host `address` are, if they lie whole
/// in a single window.
pub fn place(windows: &[Window], address: u128, width: usize) -> Option<usize> {
    let end = address + width as u128;
    for window in windows {
        let start = u128::from(window.start);
        if start <= address && end <= window.end() {
            return Some((u128::from(window.from) + (address - start)) as usize);
        }
    }
    None
}

/// Fetches an entry of `width` bytes at host `address`, exactly if it lies whole
/// in a single window, and adds the host addresses of its words to `words`.
/// Otherwise nothing is fetched and nothing is added.
pub fn fetch(image: Image, address: u128, width: usize, words: &mut Vec<u64>) -> Option<Vec<u8>> {
    let first = place(image.windows, address, width)?;
    for n in 0..width / 8 {
        words.push((address + 8 * n as u128) as u64);
    }
    Some(image.run[first..first + width].to_vec())
}
