//! Which outcome an answer is, by what the request read on its way.

use crate::met::{Call, Kind, Met};
use crate::windows::{defects, holder, shapes, Defect, Seen};
use cases::{place, Request};
use reference::{memory_request, named_words_interrupt_in, named_words_memory_in};
use reference::{Outcome, Registers, Window};

/// The fault reasons for an entry that couldn't be fetched.
pub const ACCESS: [u8; 5] = [0x07, 0x08, 0x09, 0x23, 0x27];

/// The words that a request reads, in order: where they stand and what they hold.
pub struct Read {
    places: Vec<u64>,
    words: Vec<u64>,
}

fn places(registers: &Registers, windows: &[Window], run: &[u8], request: &Request) -> Vec<u64> {
    match *request {
        Request::Memory {
            source,
            address,
            write,
        } => named_words_memory_in(registers, windows, run, source, address, write),
        Request::Interrupt {
            source,
            address,
            data,
        } => named_words_interrupt_in(registers, windows, run, source, address, data),
    }
}

impl Read {
    /// To be taken before the request is put, which may change the run.
    pub fn by(registers: &Registers, windows: &[Window], run: &[u8], request: &Request) -> Self {
        let places = places(registers, windows, run, request);
        let word = |&at: &u64| {
            let mut word = [0; 8];
            if let Some(place) = place(windows, at) {
                word.copy_from_slice(&run[place..place + 8]);
            }
            u64::from_le_bytes(word)
        };
        let words = places.iter().map(word).collect();
        Self { places, words }
    }

    /// What is met in the entries themselves.
    pub fn entries(&self, registers: &Registers, request: &Request) -> Vec<Met> {
        match request {
            Request::Memory { .. } => self.tables(),
            Request::Interrupt { .. } => self.interrupt(registers),
        }
    }

    /// Whether the last entry read ends with a plain image.
    pub fn at_the_end(&self, length: usize, request: &Request) -> Option<Met> {
        let end = self.places.last().map(|place| place + 8);
        (end == Some(length as u64)).then(|| Met::AtTheEnd(kind(request, self.words.len() - 1)))
    }

    /// What is met in windows that are no plain image.
    pub fn windows(
        &self,
        registers: &Registers,
        windows: &[Window],
        run: usize,
        request: &Request,
        outcome: &Outcome,
    ) -> Vec<Seen> {
        let defects = defects(windows, run);
        if !defects.is_empty() {
            return refused(registers, &defects, request, outcome);
        }
        let mut seen = vec![Seen::Good(windows.len())];
        seen.extend(
            shapes(windows, run, registers.haw)
                .into_iter()
                .map(Seen::Shaped),
        );
        let mut next = 0;
        while next < self.places.len() {
            let kind = kind(request, next);
            let (at, words) = (self.places[next], kind.words());
            next += words;
            let last = next == self.places.len();
            seen.extend(Seen::found(windows, kind, at, 8 * words as u64, last));
        }
        match outcome {
            Outcome::Blocked(fault) if ACCESS.contains(&fault.reason) => {
                let entry = fault.entry.unwrap_or(0);
                seen.push(Seen::missing(windows, kind(request, next), entry));
            }
            Outcome::Posted { .. } => {
                let descriptor = self.places.get(2).and_then(|&at| holder(windows, at));
                seen.extend(descriptor.map(|n| Seen::Posted(n + 1)));
            }
            _ => {}
        }
        seen
    }

    fn tables(&self) -> Vec<Met> {
        let ([_, _, low, high, ..], [r0, r1, c0, c1, pages @ ..]) =
            (&self.words[..], &self.places[..])
        else {
            return Vec::new();
        };
        let mut met = vec![Met::Width(high & 7), Met::Type(low >> 2 & 3)];
        if pages.contains(r0) || pages.contains(r1) {
            met.push(Met::PageOverRoot);
        }
        if pages.contains(c0) || pages.contains(c1) {
            met.push(Met::PageOverContext);
        }
        if (1..pages.len()).any(|n| pages[..n].contains(&pages[n])) {
            met.push(Met::PageTwice);
        }
        met
    }

    fn interrupt(&self, registers: &Registers) -> Vec<Met> {
        let ([low, high, ..], [entry, _, descriptor @ ..]) = (&self.words[..], &self.places[..])
        else {
            return Vec::new();
        };
        let (svt, sq) = (high >> 18 & 3, high >> 16 & 3);
        let posted = low >> 15 & 1 == 1;
        let mut met = vec![
            Met::Validation { svt, sq },
            Met::Format {
                posted,
                posting: registers.posting,
                eime: registers.eime,
            },
        ];
        if descriptor.contains(entry) {
            met.push(Met::DescriptorOverEntry);
        }
        met
    }

    /// Where the next entry couldn't be fetched: whether one more byte would have done.
    pub fn one_byte_short(
        &self,
        registers: &Registers,
        image: &mut Vec<u8>,
        request: &Request,
    ) -> Option<Met> {
        let read = self.words.len();
        image.push(0);
        let whole = Window {
            start: 0,
            from: 0,
            length: image.len() as u64,
        };
        let more = places(registers, &[whole], image, request).len();
        image.pop();
        (more > read).then(|| Met::OneByteShort(kind(request, read)))
    }

    /// The answer's own kind.
    pub fn outcome(&self, registers: &Registers, request: &Request, outcome: &Outcome) -> Met {
        let memory = matches!(request, Request::Memory { .. });
        match outcome {
            Outcome::Refused(4) if memory => self.refused_page(),
            Outcome::Refused(number) if memory => Met::MemoryRefused(*number),
            Outcome::Refused(number) => Met::InterruptRefused(*number),
            Outcome::Blocked(fault) => {
                let (reason, recordable) = (fault.reason, fault.recordable);
                if memory {
                    Met::MemoryBlocked { reason, recordable }
                } else {
                    Met::InterruptBlocked { reason, recordable }
                }
            }
            Outcome::Granted(_) => self.granted(),
            Outcome::Passed if registers.ire => Met::PassedOld,
            Outcome::Passed => Met::PassedOff,
            Outcome::Remapped { .. } => self.remapped(),
            Outcome::Posted { notice, .. } => {
                let word = |n: usize| self.words.get(n).copied().unwrap_or(0);
                let [on, sn] = [0, 1].map(|bit| word(6) >> bit & 1 == 1);
                Met::Posted {
                    notice: notice.is_some(),
                    urg: word(0) >> 14 & 1 == 1,
                    sn,
                    on,
                }
            }
        }
    }

    fn granted(&self) -> Met {
        let [_, _, _, high, pages @ ..] = &self.words[..] else {
            return Met::GrantedOff;
        };
        let levels = (high & 7) + 2;
        match pages.len() as u64 {
            0 => Met::GrantedThrough { levels },
            walked => Met::GrantedPage {
                leaf: levels + 1 - walked,
                levels,
            },
        }
    }

    /// Number 4 is told of the page that a walk ended with.
    fn refused_page(&self) -> Met {
        match self.granted() {
            Met::GrantedPage { leaf, levels } => Met::RefusedPage { leaf, levels },
            _ => Met::MemoryRefused(4),
        }
    }

    fn remapped(&self) -> Met {
        let high = self.words.get(1).copied().unwrap_or(0);
        let svt = high >> 18 & 3;
        let sq = if svt == 1 { high >> 16 & 3 } else { 0 };
        Met::Remapped { svt, sq }
    }
}

/// What is met where windows are bad: the one thing that is wrong, and what else would have been said.
fn refused(
    registers: &Registers,
    defects: &[Defect],
    request: &Request,
    outcome: &Outcome,
) -> Vec<Seen> {
    let (call, on, address) = match *request {
        Request::Memory { address, .. } => (Call::Memory, registers.te, address),
        Request::Interrupt { address, .. } => (Call::Interrupt, registers.ire, address),
    };
    let good = Outcome::Refused(1) == *outcome && !bad_registers(registers);
    let &[defect] = defects else {
        return Vec::new();
    };
    if !good {
        return Vec::new();
    }
    let mut seen = vec![Seen::Bad(defect, call)];
    if !on {
        seen.push(Seen::BadWhileOff(call));
    }
    if (address >> 20 == 0xFEE) == (call == Call::Memory) {
        seen.push(Seen::BadBeforeTwo(call));
    }
    seen
}

/// Whether the registers are refused by themselves: with TE off a read of 0 is granted or refused.
pub fn bad_registers(registers: &Registers) -> bool {
    let off = Registers {
        te: false,
        ..*registers
    };
    memory_request(&off, &[], 0, 0, false) == Outcome::Refused(1)
}

/// The kind of the entry to which the word after so many belongs.
fn kind(request: &Request, before: usize) -> Kind {
    match (request, before) {
        (Request::Memory { .. }, 0 | 1) => Kind::Root,
        (Request::Memory { .. }, 2 | 3) => Kind::Context,
        (Request::Memory { .. }, _) => Kind::Page,
        (Request::Interrupt { .. }, 0 | 1) => Kind::Interrupt,
        (Request::Interrupt { .. }, _) => Kind::Descriptor,
    }
}

impl Kind {
    /// How many words an entry has.
    fn words(self) -> usize {
        match self {
            Kind::Page => 1,
            Kind::Root | Kind::Context | Kind::Interrupt => 2,
            Kind::Descriptor | Kind::Taken => 8,
        }
    }
}
