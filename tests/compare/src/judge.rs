//! Puts a world's requests to both sides.

use crate::bytes;
use crate::classify::{bad_registers, Read, ACCESS};
use crate::flaw::Flaw;
use crate::lent::Lent;
use crate::met::{Call, Kind, Met};
use crate::print::hex;
use crate::takes::status_of;
use crate::tally::Tally;
use crate::windows::{defects, over, Seen};
use cases::{Request, World};
use interface::ANSWER_SIZE;
use reference::{interrupt_request_in, memory_request_in, take_in, Outcome, Take};

/// What an answer buffer holds before a call. An answer overwrites all of it.
const BEFORE: [u8; ANSWER_SIZE] = [0xA5; ANSWER_SIZE];

/// Both sides' runs, kept from one world to the next for their memory alone.
pub struct Judge {
    flaw: Flaw,
    windows: Vec<u64>,
    ours: Lent,
    answer: Lent,
    theirs: Vec<u8>,
}

impl Judge {
    /// One whose reference has a flaw, or none.
    pub fn new(flaw: Flaw) -> Self {
        Self {
            flaw,
            windows: Vec::new(),
            ours: Lent::default(),
            answer: Lent::default(),
            theirs: Vec::new(),
        }
    }

    /// Puts each request of a world to both sides and compares status, answer and run; then each take.
    pub fn world(&mut self, world: &World, mut tally: Option<&mut Tally>) -> Result<(), String> {
        // Any alignment, but the same whenever this world is run.
        let before = world.image.len() / 8 % 8;
        self.ours.take(&world.image, before);
        self.theirs.clone_from(&world.image);
        self.windows.clear();
        for window in &world.windows {
            let numbers = [window.start, window.from, window.length];
            self.windows.extend(numbers);
        }
        let registers = bytes::registers(&world.registers);
        for (n, request) in world.requests.iter().enumerate() {
            let read = tally
                .is_some()
                .then(|| Read::by(&world.registers, &world.windows, &self.theirs, request));
            self.answer.take(&BEFORE, n % 8);
            let status = self.ours(&registers, request);
            let outcome = self.theirs(world, request);
            self.compare(n, status, &outcome)?;
            if let (Some(read), Some(tally)) = (read, tally.as_deref_mut()) {
                self.count(tally, world, request, &read, &outcome);
            }
        }
        for &descriptor in &world.takes {
            self.take(world, &registers, descriptor, tally.as_deref_mut())?;
        }
        Ok(())
    }

    /// A take, on both sides.
    fn take(
        &mut self,
        world: &World,
        registers: &[u8],
        descriptor: u64,
        tally: Option<&mut Tally>,
    ) -> Result<(), String> {
        let status = interface::take(
            registers,
            &self.windows,
            self.ours.content_mut(),
            descriptor,
        );
        let (flaw, refused) = (self.flaw, Take::Refused(1));
        let taken = over(
            flaw,
            &world.windows,
            &mut self.theirs,
            refused,
            |shown, run| take_in(&world.registers, shown, run, descriptor),
        );
        let expected = status_of(taken);
        if status != expected || self.ours.content() != self.theirs || !self.ours.kept() {
            return Err(format!(
                "take from {descriptor:X}h: {status:X}h, expected {expected:X}h; the same run: {}",
                self.ours.content() == self.theirs
            ));
        }
        if let Some(tally) = tally {
            tally.cases += 1;
            for seen in self.seen_in_take(world, descriptor, taken) {
                tally.meet(Met::Windows(seen));
            }
        }
        Ok(())
    }

    /// What a take met, over windows that are no plain image.
    fn seen_in_take(&self, world: &World, descriptor: u64, taken: Take) -> Vec<Seen> {
        let (windows, kind) = (&world.windows, Kind::Taken);
        let defects = defects(windows, self.theirs.len());
        match (taken, &defects[..]) {
            _ if world.is_flat() => Vec::new(),
            (Take::Refused(1), &[defect]) if !bad_registers(&world.registers) => {
                vec![Seen::Bad(defect, Call::Take)]
            }
            (Take::Refused(5), _) if descriptor % 64 == 0 => {
                vec![Seen::missing(windows, kind, descriptor)]
            }
            (Take::Refused(_), _) => Vec::new(),
            (Take::Vector(_) | Take::None, _) => {
                let mut seen = Seen::found(windows, kind, descriptor, 64, true);
                if descriptor == 0u64.wrapping_sub(64) {
                    seen.push(Seen::TakenAtTheTop);
                }
                seen
            }
        }
    }

    fn ours(&mut self, registers: &[u8], request: &Request) -> u32 {
        let answer = self.answer.content_mut();
        match *request {
            Request::Memory {
                source,
                address,
                write,
            } => {
                let (windows, run) = (&self.windows, self.ours.content());
                let write = write.into();
                interface::memory_request(registers, windows, run, source, address, write, answer)
            }
            Request::Interrupt {
                source,
                address,
                data,
            } => {
                let (windows, run) = (&self.windows, self.ours.content_mut());
                interface::interrupt_request(registers, windows, run, source, address, data, answer)
            }
        }
    }

    fn theirs(&mut self, world: &World, request: &Request) -> Outcome {
        let (flaw, slip, refused) = (self.flaw, self.flaw.slip(), Outcome::Refused(1));
        let (registers, windows) = (&world.registers, &world.windows);
        let run = &mut self.theirs;
        match *request {
            Request::Memory {
                source,
                address,
                write,
            } => over(flaw, windows, run, refused, |shown, run| {
                memory_request_in(slip, registers, shown, run, source, address, write)
            }),
            Request::Interrupt {
                source,
                address,
                data,
            } => {
                let mut outcome = over(flaw, windows, run, refused, |shown, run| {
                    interrupt_request_in(slip, registers, shown, run, source, address, data)
                });
                flaw.post(&mut outcome);
                if let (Flaw::StrayBit, Outcome::Blocked(_)) = (flaw, &outcome) {
                    run.last_mut().into_iter().for_each(|byte| *byte ^= 1);
                }
                outcome
            }
        }
    }

    fn compare(&self, request: usize, status: u32, outcome: &Outcome) -> Result<(), String> {
        let (ours, answer) = (self.ours.content(), self.answer.content());
        let expected = bytes::answer(outcome);
        let kept = self.ours.kept() && self.answer.kept();
        if status == 0 && answer == expected && ours == self.theirs && kept {
            return Ok(());
        }
        let (expected, answer) = (hex(&expected), hex(answer));
        let mut said = format!(
            "request {request} differs\n  reference: {outcome:X?}\n  expected: status 0, answer \
             {expected}\n  Galitzaf: status {status:X}, answer {answer}"
        );
        let mut bytes = ours.iter().zip(&self.theirs);
        if let Some(address) = bytes.position(|(a, b)| a != b) {
            said += &format!("\n  the runs differ from byte {address:X}h on");
        }
        if !kept {
            said += "\n  bytes beside the run or the answer were written";
        }
        Err(said)
    }

    fn count(
        &mut self,
        tally: &mut Tally,
        world: &World,
        request: &Request,
        read: &Read,
        outcome: &Outcome,
    ) {
        let registers = &world.registers;
        tally.cases += 1;
        let met = read.outcome(registers, request, outcome);
        tally.meet(met);
        if matches!(
            met,
            Met::PassedOld | Met::InterruptBlocked { reason: 0x25, .. }
        ) {
            let (eime, cfis) = (registers.eime, registers.cfis);
            tally.meet(Met::OldFormat { eime, cfis });
        }
        let entries = read.entries(registers, request);
        entries.into_iter().for_each(|met| tally.meet(met));
        if !world.is_flat() {
            let (windows, run) = (&world.windows, self.theirs.len());
            let seen = read.windows(registers, windows, run, request, outcome);
            seen.into_iter()
                .for_each(|seen| tally.meet(Met::Windows(seen)));
            return;
        }
        let end = read.at_the_end(self.theirs.len(), request);
        end.into_iter().for_each(|met| tally.meet(met));
        let Outcome::Blocked(fault) = outcome else {
            return;
        };
        if ACCESS.contains(&fault.reason) {
            let short = read.one_byte_short(registers, &mut self.theirs, request);
            short.into_iter().for_each(|met| tally.meet(met));
        }
    }
}
