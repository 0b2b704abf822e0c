//! Traces: a world's requests are asked and traced by both sides, the trace is damaged, read and replayed. Blocks, entries, damaged
//! blocks, differing entries and the image are compared.

use crate::bytes;
use crate::flaw::Flaw;
use crate::met::Met;
use crate::print::print_world;
use crate::tally::Tally;
use cases::{Random, Request, Suite, World, SUITES};
use interface::{Asked, ANSWER_SIZE};
use reference::{
    encode_entry, read_trace, replay_trace, traced_answer, write_trace, Registers, TraceEntry,
    TracePlace, TracedRequest, Window,
};
use std::fmt;

/// The suite's name.
pub const NAME: &str = "traces";

/// Worlds of each suite, where it has as many.
const EACH: u64 = 3000;

/// Bytes of a block.
const BLOCK: usize = 512;

/// What was met in a trace.
#[derive(Clone, Copy, Debug, PartialEq, Eq, PartialOrd, Ord)]
pub enum Seen {
    /// An entry of this kind, with this answer.
    Entry { kind: u8, answer: u8 },
    /// A block of 15 entries, or the last one of fewer.
    Block { filled: bool },
    /// A block with this damage, named or not.
    Read { damage: Damage, named: bool },
    /// A request of this kind replayed, with the same answer or another.
    Replayed { kind: u8, differs: bool },
    /// A call with something malformed, by what it answered.
    Malformed { call: &'static str, status: u32 },
}

/// What is done to a trace.
#[derive(Clone, Copy, Debug, PartialEq, Eq, PartialOrd, Ord)]
pub enum Damage {
    /// Nothing.
    None,
    /// A byte is another.
    Byte,
    /// A byte is another, and the sum is right.
    Summed,
    /// The trace is cut within a block.
    Cut,
    /// Two blocks are exchanged.
    Exchanged,
}

const DAMAGES: [Damage; 5] = [
    Damage::None,
    Damage::Byte,
    Damage::Summed,
    Damage::Cut,
    Damage::Exchanged,
];

/// The answers of each kind.
const ANSWERS: [(u8, &[u8]); 4] = [
    (1, &[1, 2, 3]),
    (2, &[1, 2, 3]),
    (3, &[1, 2, 4, 5, 6, 7]),
    (4, &[1, 2, 3, 8]),
];

impl Seen {
    /// All that has to be met.
    pub fn all() -> Vec<Self> {
        let mut all = Vec::new();
        for (kind, answers) in ANSWERS {
            all.extend(answers.iter().map(|&answer| Seen::Entry { kind, answer }));
            all.extend([false, true].map(|differs| Seen::Replayed { kind, differs }));
        }
        all.extend([false, true].map(|filled| Seen::Block { filled }));
        for (call, statuses) in [
            ("append", [0x102, 0x107].as_slice()),
            ("close", &[0x107]),
            ("next", &[0x102, 0x107]),
            ("replay", &[0x101, 0x102, 0x105, 0x107]),
        ] {
            all.extend(
                statuses
                    .iter()
                    .map(|&status| Seen::Malformed { call, status }),
            );
        }
        for damage in DAMAGES {
            let named = true;
            let unnamed = Seen::Read {
                damage,
                named: false,
            };
            match damage {
                Damage::None => all.push(unnamed),
                Damage::Summed => all.extend([unnamed, Seen::Read { damage, named }]),
                _ => all.push(Seen::Read { damage, named }),
            }
        }
        all
    }
}

fn taken(suite: &Suite) -> u64 {
    suite.worlds.min(EACH)
}

/// Traces.
pub fn traces() -> u64 {
    SUITES.iter().map(taken).sum()
}

/// Builds the world of a case.
pub fn build(number: u64, world: &mut World) {
    let mut left = number;
    for suite in SUITES {
        let taken = taken(suite);
        if left < taken {
            (suite.build)(left * suite.worlds / taken, world);
            return;
        }
        left -= taken;
    }
}

/// Prints a case.
pub fn print(number: u64, world: &mut World) {
    build(number, world);
    print_world(world);
}

/// The world's requests again and again, memory requests as translation requests too.
fn requests(world: &World, random: &mut Random) -> Vec<TracedRequest> {
    let mut all = Vec::new();
    for request in &world.requests {
        match *request {
            Request::Memory {
                source,
                address,
                write,
            } => {
                all.push(TracedRequest::Memory {
                    source,
                    address,
                    write,
                });
                all.push(TracedRequest::Translation { source, address });
            }
            Request::Interrupt {
                source,
                address,
                data,
            } => {
                all.push(TracedRequest::Interrupt {
                    source,
                    address,
                    data,
                });
            }
        }
    }
    let wanted = random.pick(&[1, 14, 15, 16, 29, 30, 31, 33]);
    all.into_iter().cycle().take(wanted).collect()
}

/// One side's unit.
struct Side<'a> {
    registers: [u8; 24],
    windows: Vec<u64>,
    image: &'a mut Vec<u8>,
}

impl Side<'_> {
    fn of<'a>(registers: &Registers, windows: &[Window], image: &'a mut Vec<u8>) -> Side<'a> {
        let numbers = |w: &Window| [w.start, w.from, w.length];
        Side {
            registers: bytes::registers(registers),
            windows: windows.iter().flat_map(numbers).collect(),
            image,
        }
    }

    /// Asks by the C interface.
    fn ask(&mut self, request: TracedRequest) -> (Asked, [u8; ANSWER_SIZE]) {
        let mut answer = [0; ANSWER_SIZE];
        let (r, w, image) = (&self.registers, &self.windows, &mut *self.image);
        let asked = match request {
            TracedRequest::Memory {
                source,
                address,
                write,
            } => {
                let bit = u8::from(write);
                interface::memory_request(r, w, image, source, address, bit, &mut answer);
                Asked {
                    kind: 1 + bit,
                    source,
                    address,
                    data: 0,
                }
            }
            TracedRequest::Translation { source, address } => {
                interface::translation_request(r, w, image, source, address, &mut answer);
                Asked {
                    kind: 4,
                    source,
                    address,
                    data: 0,
                }
            }
            TracedRequest::Interrupt {
                source,
                address,
                data,
            } => {
                interface::interrupt_request(r, w, image, source, address, data, &mut answer);
                Asked {
                    kind: 3,
                    source,
                    address,
                    data,
                }
            }
        };
        (asked, answer)
    }

    /// The trace of requests.
    fn trace(&mut self, requests: &[TracedRequest]) -> Result<Vec<u8>, String> {
        let (mut writer, mut block, mut trace) = ([0; 2], [0xA5; BLOCK], Vec::new());
        for (n, &request) in requests.iter().enumerate() {
            let (asked, answer) = self.ask(request);
            match interface::trace_append(&mut writer, &mut block, asked, &answer) {
                0x00 => {}
                0x50 => trace.extend(block),
                other => return Err(format!("append {n}: {other:X}h")),
            }
        }
        if interface::trace_close(&mut writer, &mut block) == 0x50 {
            trace.extend(block);
        }
        Ok(trace)
    }

    /// Each call of a replay: where, what it answered, and the entry it handed out.
    fn replay(&mut self, trace: &[u8]) -> Vec<([u64; 2], u32, [u8; 32])> {
        let (mut place, mut calls) = ([0; 2], Vec::new());
        loop {
            let (at, mut entry) = (place, [0; 32]);
            let (r, w, image) = (&self.registers, &self.windows, &mut *self.image);
            let status = interface::trace_replay(r, w, image, trace, &mut place, &mut entry);
            if status == 0x53 {
                return calls;
            }
            calls.push((at, status, entry));
        }
    }
}

/// What a reader of the C interface tells: entries by place, and damaged blocks.
type Told = (Vec<(TracePlace, [u8; 32])>, Vec<u64>);

fn read(trace: &[u8]) -> Told {
    let (mut place, mut entries, mut damaged) = ([0; 2], Vec::new(), Vec::new());
    loop {
        let ([block, index], mut entry) = (place, [0; 32]);
        match interface::trace_next(trace, &mut place, &mut entry) {
            0x51 => {
                let place = index as u8;
                entries.push((TracePlace { block, place }, entry));
            }
            0x52 => damaged.push(block),
            _ => return (entries, damaged),
        }
    }
}

/// The sum of a block, by weights from this one on.
fn sum(block: &mut [u8], first: u32) {
    let weighed = block[..508].iter().zip(first..);
    let sum: u32 = weighed
        .map(|(&byte, weight)| u32::from(byte) * weight)
        .sum();
    block[508..].copy_from_slice(&sum.to_le_bytes());
}

/// Damages a trace; the place of the block that shows it first.
fn damage(random: &mut Random, damage: Damage, trace: &mut Vec<u8>) -> Option<u64> {
    let blocks = trace.len() / BLOCK;
    let block = random.below(blocks as u64) as usize;
    let bytes = &mut trace[BLOCK * block..][..BLOCK];
    match damage {
        Damage::None => {}
        Damage::Byte | Damage::Summed => {
            // Mostly in the head, an entry's first bytes, or what is behind the entries.
            let at = match random.below(4) {
                0 => random.below(8),
                1 => 8 + 32 * random.below(15) + random.below(4),
                2 => 488 + random.below(24),
                _ => random.below(512),
            } as usize;
            let turned = 1 << random.below(8);
            bytes[at] ^= turned;
            if damage == Damage::Summed {
                sum(bytes, 1);
            }
        }
        Damage::Cut => {
            trace.truncate(BLOCK * block + 1 + random.below(511) as usize);
        }
        Damage::Exchanged => {
            let other = (block + 1) % blocks;
            if other == block {
                return None;
            }
            for n in 0..BLOCK {
                trace.swap(BLOCK * block + n, BLOCK * other + n);
            }
        }
    }
    Some(block as u64)
}

impl Flaw {
    /// The trace as the reference's reader sees it.
    fn seen(self, trace: &[u8]) -> Vec<u8> {
        let mut seen = trace.to_vec();
        for (block, place) in seen.chunks_exact_mut(BLOCK).zip(0u64..) {
            if self == Flaw::NumberNotCompared && block[2..8] != place.to_le_bytes()[..6] {
                block[2..8].copy_from_slice(&place.to_le_bytes()[..6]);
                sum(block, 1);
            }
            if self == Flaw::SumNotLookedAt {
                sum(block, 1);
            }
        }
        seen
    }

    /// The reference's replay.
    fn replay(
        self,
        registers: &Registers,
        windows: &[Window],
        image: &mut [u8],
        trace: &[u8],
    ) -> Vec<TracePlace> {
        if self != Flaw::ReplayWithoutPosts {
            return replay_trace(registers, windows, image, trace);
        }
        let entries = read_trace(trace).entries.into_iter();
        let differing = entries.filter(|(_, entry)| {
            let mut image = image.to_vec();
            traced_answer(registers, windows, &mut image, entry.request) != entry.answer
        });
        differing.map(|(place, _)| place).collect()
    }
}

/// A malformed call of a number, what it is expected to answer and what it did; it changes nothing.
fn malformed(number: u64, trace: &[u8]) -> Result<Seen, String> {
    let (mut writer, mut block) = (vec![3, 7], vec![0xA5; BLOCK]);
    let (mut place, mut entry) = (vec![0, 0], vec![0xA5; 32]);
    let (mut registers, mut windows, mut image) = (vec![0; 24], vec![0, 0, 64], vec![0xA5; 64]);
    let mut answer = vec![0; ANSWER_SIZE];
    answer[0] = 6;
    let (call, wanted) = match number % 16 {
        0..=4 => ("append", 0x107),
        5 | 6 => ("append", 0x102),
        7 | 8 => ("close", 0x107),
        9 | 10 => ("next", 0x107),
        11 => ("next", 0x102),
        12 => ("replay", 0x101),
        13 => ("replay", 0x105),
        14 => ("replay", 0x107),
        _ => ("replay", 0x102),
    };
    match number % 16 {
        0 => writer.truncate(1),
        1 => writer.push(0),
        2 => writer[0] = 15,
        3 => writer[1] = 1 << 48,
        4 => block.truncate(511),
        5 => answer.push(0),
        6 => answer[0] = (number / 16 % 247) as u8 + 9,
        7 => block.push(0),
        8 => writer[0] = 255,
        9 => place.truncate(1),
        10 => place[1] = 15,
        11 => entry.truncate(31),
        12 => registers.truncate(23),
        13 => windows.truncate(2),
        14 => place[1] = 1 << 32,
        _ => entry.push(0),
    }
    let asked = Asked {
        kind: 1,
        source: 0,
        address: 0,
        data: 0,
    };
    let before = (
        writer.clone(),
        block.clone(),
        place.clone(),
        entry.clone(),
        image.clone(),
    );
    let status = match call {
        "append" => interface::trace_append(&mut writer, &mut block, asked, &answer),
        "close" => interface::trace_close(&mut writer, &mut block),
        "next" => interface::trace_next(trace, &mut place, &mut entry),
        _ => {
            let (image, place, entry) = (&mut image, &mut place, &mut entry);
            interface::trace_replay(&registers, &windows, image, trace, place, entry)
        }
    };
    if status != wanted || before != (writer, block, place, entry, image) {
        return Err(format!(
            "malformed {call}: {status:X}h, expected {wanted:X}h"
        ));
    }
    Ok(Seen::Malformed { call, status })
}

/// Asks, traces, damages, reads and replays.
pub fn run(
    number: u64,
    world: &mut World,
    flaw: Flaw,
    mut tally: Option<&mut Tally>,
) -> Result<(), String> {
    let mut random = Random::of(NAME, number);
    let requests = requests(world, &mut random);
    if requests.is_empty() {
        return Ok(());
    }
    let (mut ours, mut theirs) = (world.image.clone(), world.image.clone());
    let traced = Side::of(&world.registers, &world.windows, &mut ours).trace(&requests)?;
    let entry = |request| TraceEntry {
        request,
        answer: traced_answer(&world.registers, &world.windows, &mut theirs, request),
    };
    let entries: Vec<TraceEntry> = requests.iter().copied().map(entry).collect();
    let mut expected = write_trace(&entries);
    if flaw == Flaw::WeightByPlace {
        for block in expected.chunks_exact_mut(BLOCK) {
            sum(block, 0);
        }
    }
    if traced != expected || ours != theirs {
        return Err("the traces differ".to_string());
    }
    let mut meet = |seen| {
        if let Some(tally) = tally.as_deref_mut() {
            tally.meet(Met::Traces(seen));
        }
    };
    for entry in entries.iter().map(encode_entry) {
        meet(Seen::Entry {
            kind: entry[0],
            answer: entry[1],
        });
    }
    for block in traced.chunks(BLOCK) {
        meet(Seen::Block {
            filled: block[1] == 15,
        });
    }

    meet(malformed(number, &traced)?);

    let mut trace = traced;
    let kind = random.pick(&DAMAGES);
    let shown = damage(&mut random, kind, &mut trace);
    let (handed, damaged) = read(&trace);
    let told = read_trace(&flaw.seen(&trace));
    let told_entries: Vec<_> = told
        .entries
        .iter()
        .map(|(at, entry)| (*at, encode_entry(entry)))
        .collect();
    if handed != told_entries || damaged != told.damaged {
        return Err(format!(
            "read after {kind:?}: {damaged:?}, expected {:?}",
            told.damaged
        ));
    }
    for place in 0..trace.len().div_ceil(BLOCK) as u64 {
        let status = interface::trace_check(&trace, place);
        if (status == 0x52) != damaged.contains(&place) {
            return Err(format!("block {place}: {status:X}h"));
        }
    }
    if let Some(block) = shown {
        meet(Seen::Read {
            damage: kind,
            named: damaged.contains(&block),
        });
    }

    // Over the same memory, over an edited one, or under other registers.
    let mut registers = world.registers;
    match random.below(4) {
        0 => registers.te = !registers.te,
        1 => registers.ire = !registers.ire,
        2 => cases::scratch(&mut random, world),
        _ => {}
    }
    let (mut ours, mut theirs) = (world.image.clone(), world.image.clone());
    let calls = Side::of(&registers, &world.windows, &mut ours).replay(&trace);
    let differing = flaw.replay(&registers, &world.windows, &mut theirs, &trace);
    let mut named = Vec::new();
    let mut passed = Vec::new();
    for &([block, index], status, _) in &calls {
        let place = TracePlace {
            block,
            place: index as u8,
        };
        match status {
            0x52 => passed.push(block),
            0x55 => named.push(place),
            _ => {}
        }
    }
    let without_posts = flaw == Flaw::ReplayWithoutPosts;
    if named != differing || passed != damaged || (ours != theirs && !without_posts) {
        return Err(format!(
            "replay: {named:?} {passed:?}, expected {differing:?} {damaged:?}"
        ));
    }
    let asked = calls.iter().filter(|(_, status, _)| *status != 0x52);
    for ((_, entry), (_, status, _)) in handed.iter().zip(asked) {
        meet(Seen::Replayed {
            kind: entry[0],
            differs: *status == 0x55,
        });
    }
    if let Some(tally) = tally {
        // Requests with their entries, a close, a malformed call, blocks looked at, entries read and replayed.
        tally.cases += 2 * requests.len() as u64 + 2 + trace.len().div_ceil(BLOCK) as u64;
        tally.cases += (handed.len() + damaged.len() + 1 + calls.len() + 1) as u64;
    }
    Ok(())
}

fn request(kind: u8) -> &'static str {
    ["a read", "a write", "an interrupt", "a translation request"][usize::from(kind) - 1]
}

impl fmt::Display for Seen {
    fn fmt(&self, f: &mut fmt::Formatter<'_>) -> fmt::Result {
        match *self {
            Seen::Entry { kind, answer } => {
                let answers = [
                    "refused",
                    "a fault",
                    "granted",
                    "passed",
                    "remapped",
                    "posted",
                    "posted with a notification",
                    "a page",
                ];
                write!(f, "{}, {}", request(kind), answers[usize::from(answer) - 1])
            }
            Seen::Malformed { call, status } => {
                let said = match status {
                    0x101 => "bad registers",
                    0x102 => "bad answer",
                    0x105 => "bad windows",
                    _ => "bad trace",
                };
                write!(f, "malformed {call}, {said}")
            }
            Seen::Block { filled: true } => f.write_str("a block of 15"),
            Seen::Block { filled: false } => f.write_str("a last block"),
            Seen::Read { damage, named } => {
                let damage = match damage {
                    Damage::None => "untouched",
                    Damage::Byte => "a byte changed",
                    Damage::Summed => "a byte changed with the sum",
                    Damage::Cut => "cut",
                    Damage::Exchanged => "exchanged",
                };
                write!(
                    f,
                    "a block {damage}, {}",
                    if named { "named" } else { "read" }
                )
            }
            Seen::Replayed { kind, differs } => {
                let now = if differs {
                    "another answer"
                } else {
                    "the same answer"
                };
                write!(f, "{} replayed, {now}", request(kind))
            }
        }
    }
}
