//! Ask 11: a cache of 64 translations, as a second engine.

use crate::context::context;
use crate::image::{bad_windows, Image, Window};
use crate::memory::{memory_request_in, walked_entries_in};
use crate::pages::low_bits;
use crate::registers::{in_interrupt_range, outside_the_list, Registers};
use crate::slips::Slip;
use crate::Outcome;

/// So many translations are held.
const HELD: usize = 64;

/// A cached translation.
#[derive(Clone, Copy, Debug, PartialEq, Eq)]
pub struct Cached {
    /// The source.
    pub source: u16,
    /// The kind: a write, or a read.
    pub write: bool,
    /// Its page's first address.
    pub page: u64,
    /// Its page's size, that of the leaf.
    pub size: u64,
    /// The page's frame.
    pub frame: u64,
    /// The domain, 87:72 of the context entry as cached.
    pub domain: u16,
}

/// The second engine: the plain one, and the translations it holds, the oldest
/// first.
#[derive(Clone, Debug, Default, PartialEq, Eq)]
pub struct Cache {
    held: Vec<Cached>,
}

impl Cache {
    /// An empty cache.
    pub fn new() -> Self {
        Self::default()
    }

    /// The translations held, the oldest first.
    pub fn held(&self) -> &[Cached] {
        &self.held
    }

    /// Takes all translations out.
    pub fn invalidate_all(&mut self) {
        self.held.clear();
    }

    /// Takes those of a domain out.
    pub fn invalidate_domain(&mut self, domain: u16) {
        self.held.retain(|cached| cached.domain != domain);
    }

    /// Answers a memory request.
    pub fn memory_request(
        &mut self,
        registers: &Registers,
        windows: &[Window],
        run: &[u8],
        source: u16,
        address: u64,
        write: bool,
    ) -> Outcome {
        // A held translation answers just the requests for its page, source
        // and kind past 1, 2 and TE, no word read, the newest where two could.
        let past = !outside_the_list(registers)
            && !bad_windows(Image { windows, run })
            && !in_interrupt_range(address)
            && registers.te;
        if past {
            for cached in self.held.iter().rev() {
                let in_its_page = address >= cached.page && address - cached.page < cached.size;
                if in_its_page && cached.source == source && cached.write == write {
                    return Outcome::Granted(cached.frame + (address - cached.page));
                }
            }
        }
        // Otherwise the plain engine answers.
        let none = Slip::None;
        let outcome = memory_request_in(none, registers, windows, run, source, address, write);
        // Only untranslated grants by page walk are cached: a grant that
        // walked page entries.
        let Outcome::Granted(host) = outcome else {
            return outcome;
        };
        let walked = walked_entries_in(registers, windows, run, source, address, write);
        if walked.is_empty() {
            return outcome;
        }
        let image = Image { windows, run };
        let Ok(found) = context(none, registers, image, source, &mut Vec::new()) else {
            return outcome;
        };
        // The last entry walked was the leaf, from the top level down.
        let leaf = found.levels + 1 - walked.len();
        let size = 1 << low_bits(leaf);
        let page = address / size * size;
        self.held.push(Cached {
            source,
            write,
            page,
            size,
            frame: host - (address - page),
            domain: found.domain,
        });
        // Pushed out at a 65th: the oldest, which was cached first.
        if self.held.len() > HELD {
            self.held.remove(0);
        }
        outcome
    }
}
