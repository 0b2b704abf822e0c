//! Sequences of recorder calls: status, buffer and state compared after each.

use crate::bytes;
use crate::flaw::Flaw;
use crate::met::{Call, Met};
use crate::pool::Pool;
use crate::print::hex;
use crate::tally::Tally;
use cases::Random;
use interface::{ANSWER_SIZE, RECORDER_SIZE};
use reference::Recorder;
use std::fmt;

/// The suite's name.
pub const NAME: &str = "recorder";

/// Sequences.
pub const SEQUENCES: u64 = 60_000;

/// One call.
#[derive(Clone, Copy)]
enum Step {
    Record([u8; ANSWER_SIZE]),
    ClearSlot(u8),
    ClearOverflow,
}

/// A buffer, a state and calls.
pub struct Sequence {
    records: Vec<u8>,
    state: [u8; RECORDER_SIZE],
    steps: Vec<Step>,
}

/// The slot counts that a length may give, at 16 bytes a slot.
pub const SLOTS: [usize; 6] = [8, 16, 32, 64, 128, 256];

/// The slots of a buffer; none where its length isn't one of those.
fn slots_in(records: &[u8]) -> usize {
    let mut slots = SLOTS.into_iter();
    slots.find(|n| 16 * n == records.len()).unwrap_or(0)
}

/// A length beside a good one, or far from all.
pub fn wrong_length(random: &mut Random) -> usize {
    let right = 16 * random.pick(&SLOTS);
    match random.below(7) {
        0 => right - 1,
        1 => right + 1,
        2 => right - 16,
        3 => right + 16,
        4 => right + 8,
        5 => right + right / 2,
        _ => random.pick(&[0, 1, 15, 16, 32, 64, 8192]),
    }
}

/// Mostly of a good length; zero, full or with no record standing.
fn buffer(random: &mut Random) -> Vec<u8> {
    let length = if random.one_in(12) {
        wrong_length(random)
    } else {
        16 * random.pick(&SLOTS)
    };
    let mut records = vec![0; length];
    let kind = random.below(4);
    if kind > 1 {
        records.fill_with(|| random.word() as u8);
    }
    if kind == 2 {
        let last = records.iter_mut().skip(15).step_by(16);
        last.for_each(|byte| *byte &= 0x7F);
    }
    records
}

/// A slot, the last one often.
fn slot_below(random: &mut Random, slots: usize) -> u8 {
    if random.one_in(4) {
        return (slots - 1) as u8;
    }
    random.below(slots as u64) as u8
}

/// A slot above the last, where a byte can name one.
fn slot_above(random: &mut Random, slots: usize) -> u8 {
    random
        .pick(&[slots, slots + 1, 2 * slots - 1, 2 * slots, 255])
        .min(255) as u8
}

fn step(random: &mut Random, pool: &Pool, slots: usize) -> Step {
    match random.below(40) {
        0 => Step::ClearSlot(slot_above(random, slots)),
        1..=11 => Step::ClearSlot(slot_below(random, slots)),
        12..=15 => Step::ClearOverflow,
        _ => Step::Record(pool.pick(random)),
    }
}

/// Faults until the buffer is full and more, then each slot cleared and overflow too, then faults again.
fn filling(random: &mut Random, pool: &Pool, slots: usize) -> Vec<Step> {
    let mut steps = Vec::new();
    for _ in 0..2 {
        steps.extend((0..slots + slots / 2 + 4).map(|_| Step::Record(pool.pick(random))));
        steps.extend((0..slots).map(|slot| Step::ClearSlot(slot as u8)));
        steps.push(Step::ClearOverflow);
    }
    steps
}

impl Sequence {
    /// The sequence of a number.
    pub fn build(number: u64, pool: &Pool) -> Self {
        let mut random = Random::of(NAME, number);
        let records = buffer(&mut random);
        let slots = slots_in(&records).max(SLOTS[0]);
        let next = if random.one_in(16) {
            slot_above(&mut random, slots)
        } else {
            slot_below(&mut random, slots)
        };
        let mut state = [next, random.below(2) as u8];
        if random.one_in(3) {
            state = [0, 0];
        }
        let steps = if usize::from(state[0]) >= slots_in(&records) {
            (0..6).map(|_| step(&mut random, pool, slots)).collect()
        } else if random.one_in(40) {
            filling(&mut random, pool, slots)
        } else {
            (0..30).map(|_| step(&mut random, pool, slots)).collect()
        };
        Self {
            records,
            state,
            steps,
        }
    }

    /// Whether document 01's total is owed: from a zeroed buffer and state.
    fn starts_from_zero(&self) -> bool {
        self.records
            .iter()
            .chain(&self.state)
            .all(|&byte| byte == 0)
    }

    /// Makes the calls on both sides.
    pub fn run(&self, flaw: Flaw, tally: Option<&mut Tally>) -> Result<(), String> {
        let mut tally = tally;
        let mut ours = (self.records.clone(), self.state);
        let mut theirs = ours.clone();
        let mut total = 0i64;
        for (n, step) in self.steps.iter().enumerate() {
            let status = step.ours(&mut ours.0, &mut ours.1);
            let expected = step.theirs(flaw, &mut theirs.0, &mut theirs.1);
            if status != expected || ours != theirs {
                let said = |status, (records, state): &(Vec<u8>, [u8; 2])| {
                    let (state, records) = (hex(state), hex(records));
                    format!("status {status:X}, state {state}, records {records}")
                };
                return Err(format!(
                    "call {n} differs: {step}\n  expected: {}\n  Galitzaf: {}",
                    said(expected, &theirs),
                    said(status, &ours)
                ));
            }
            total += match status {
                0x14 => 1,
                0x21 => -1,
                _ => 0,
            };
            if let Some(tally) = tally.as_deref_mut() {
                tally.cases += 1;
                let (slots, call) = (slots_in(&ours.0), step.call());
                tally.meet(Met::Recorder {
                    slots,
                    call,
                    status,
                });
            }
        }
        let last = ours.0.iter().skip(15).step_by(16);
        let standing = last.filter(|&byte| byte & 0x80 != 0).count() as i64;
        if self.starts_from_zero() && total != standing {
            return Err(format!(
                "written less cleared is {total}, but {standing} stand"
            ));
        }
        Ok(())
    }

    /// Prints it.
    pub fn print(&self) {
        println!("state {}, records {}", hex(&self.state), hex(&self.records));
        for (n, step) in self.steps.iter().enumerate() {
            println!("call {n}: {step}");
        }
    }
}

impl Step {
    fn call(&self) -> Call {
        match self {
            Step::Record(_) => Call::Record,
            Step::ClearSlot(_) => Call::ClearSlot,
            Step::ClearOverflow => Call::ClearOverflow,
        }
    }

    fn ours(&self, records: &mut [u8], state: &mut [u8]) -> u32 {
        match self {
            Step::Record(answer) => interface::record(answer, records, state),
            Step::ClearSlot(slot) => interface::clear_slot(records, state, *slot),
            Step::ClearOverflow => interface::clear_overflow(records, state),
        }
    }

    fn theirs(&self, flaw: Flaw, records: &mut [u8], state: &mut [u8; RECORDER_SIZE]) -> u32 {
        let mut recorder = Recorder {
            next: state[0],
            overflow: state[1] == 1,
        };
        let call = match self {
            Step::Record(answer) => record(flaw, answer, records, &mut recorder),
            Step::ClearSlot(slot) => {
                let call = reference::clear_slot(records, &recorder, *slot);
                if call != reference::Call::Refused {
                    flaw.after_clear(records, &mut recorder, *slot);
                }
                bytes::status(call)
            }
            Step::ClearOverflow => bytes::status(reference::clear_overflow(records, &mut recorder)),
        };
        if flaw == Flaw::RefusalForgets && call == 0x03 {
            recorder.overflow = false;
        }
        *state = [recorder.next, u8::from(recorder.overflow)];
        call
    }
}

/// Recording an answer. One without a fault changes nothing, once number 3 was checked.
fn record(
    flaw: Flaw,
    answer: &[u8; ANSWER_SIZE],
    records: &mut [u8],
    recorder: &mut Recorder,
) -> u32 {
    let is_fault = answer[0] == 1;
    let recordable = is_fault && (answer[2] == 1 || flaw == Flaw::SilencedRecorded);
    let mut bytes = [0; 16];
    bytes.copy_from_slice(&answer[8..24]);
    let from = recorder.next;
    match reference::record(records, recorder, recordable, bytes) {
        reference::Call::NotRecordable if !is_fault => 0x10,
        call => {
            if call == reference::Call::Written {
                flaw.after_write(recorder, from);
            }
            bytes::status(call)
        }
    }
}

impl Flaw {
    /// Where a flawed recorder goes on after it wrote.
    fn after_write(self, recorder: &mut Recorder, from: u8) {
        match self {
            Flaw::NextAfterLast => recorder.next = from.wrapping_add(1),
            Flaw::WrapAtEight => recorder.next = from.wrapping_add(1) % 8,
            _ => {}
        }
    }

    /// What a flawed clearing of a slot does beside.
    fn after_clear(self, records: &mut [u8], recorder: &mut Recorder, slot: u8) {
        let from = 16 * usize::from(slot);
        match self {
            Flaw::RecordWiped => records[from..from + 16].fill(0),
            Flaw::OverflowWithSlot => recorder.overflow = false,
            _ => {}
        }
    }
}

impl fmt::Display for Step {
    fn fmt(&self, f: &mut fmt::Formatter<'_>) -> fmt::Result {
        match self {
            Step::Record(answer) => write!(f, "record {}", hex(answer)),
            Step::ClearSlot(slot) => write!(f, "clear slot {slot}"),
            Step::ClearOverflow => f.write_str("clear overflow"),
        }
    }
}
