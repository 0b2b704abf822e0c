//! The unit at the bench image, with the steps of a probe taken one after the other.

use cases::{bench, World};
use galitzaf::{Levels, Registers};
use interface::{ANSWER_SIZE, RECORDER_SIZE, RECORDS_SIZE};

/// What was asked.
pub enum Request {
    /// A read or a write.
    Memory {
        /// Who asks.
        source: u16,
        /// The address asked for.
        address: u64,
        /// Whether it writes.
        write: bool,
    },
    /// A translation request.
    Translation {
        /// Who asks.
        source: u16,
        /// The address asked for.
        address: u64,
    },
    /// An interrupt message.
    Interrupt {
        /// Who asks.
        source: u16,
        /// The message's address.
        address: u64,
        /// The message's data.
        data: u32,
    },
}

/// What the steps have made of it.
pub struct Unit {
    registers: Registers,
    source: u16,
    message: u32,
    /// The image.
    pub image: Vec<u8>,
    /// The image before the last request.
    pub before: Vec<u8>,
    /// The last request.
    pub request: Option<Request>,
    /// Its answer.
    pub answer: [u8; ANSWER_SIZE],
    /// What the last recorder call answered.
    pub status: Option<u32>,
    /// The record buffer.
    pub records: Vec<u8>,
    /// The recorder's state.
    pub state: [u8; RECORDER_SIZE],
}

const REGISTERS: Registers = Registers {
    haw: 39,
    mgaw: 48,
    levels: Levels {
        three: true,
        four: true,
        five: false,
    },
    pages_2m: true,
    pages_1g: true,
    posting: true,
    root_table: 0x1000,
    interrupt_table: 0x6000,
    s: 3,
    te: true,
    ire: true,
    eime: false,
    cfis: false,
};

/// A hexadecimal number.
pub fn hex(text: &str) -> Result<u64, String> {
    let digits = text.trim_end_matches('h');
    u64::from_str_radix(digits, 16).map_err(|_| format!("no number: {text}"))
}

fn decimal<T: std::str::FromStr>(text: &str) -> Result<T, String> {
    text.parse().map_err(|_| format!("no number: {text}"))
}

impl Unit {
    /// The bench image of the rules, nothing asked yet, the recorder zeroed.
    pub fn bench() -> Self {
        let mut world = World::new();
        bench::image(&mut world, bench::REGISTERS);
        Self {
            registers: REGISTERS,
            source: bench::SOURCE,
            message: 0,
            before: world.image.clone(),
            image: world.image,
            request: None,
            answer: [0; ANSWER_SIZE],
            status: None,
            records: vec![0; RECORDS_SIZE],
            state: [0; RECORDER_SIZE],
        }
    }

    /// Takes a step: a change of the image or the registers, a request, or a recorder call.
    pub fn take(&mut self, step: &str) -> Result<(), String> {
        if let Some((address, word)) = step.split_once('=') {
            return self.edit(hex(address)?, hex(word)?);
        }
        if let Some((name, on)) = step
            .split_once(' ')
            .filter(|(_, on)| ["on", "off"].contains(on))
        {
            return self.switch(name, on == "on");
        }
        let (words, last) = step.rsplit_once(' ').unwrap_or((step, ""));
        match words {
            "read" => self.memory(hex(last)?, false),
            "write" => self.memory(hex(last)?, true),
            "translate" => self.translation(hex(last)?),
            "interrupt" => self.interrupt(hex(last)?),
            "data" => self.message = hex(last)? as u32,
            "from" => self.source = hex(last)? as u16,
            "HAW" => self.registers.haw = decimal(last)?,
            "MGAW" => self.registers.mgaw = decimal(last)?,
            "S" => self.registers.s = decimal(last)?,
            "interrupt table" => self.registers.interrupt_table = hex(last)?,
            "record" => self.record(),
            "next slot" => self.state[0] = decimal(last)?,
            "clear slot" => self.clear(decimal(last)?),
            _ => return self.whole(step),
        }
        Ok(())
    }

    /// The steps that hold no number.
    fn whole(&mut self, step: &str) -> Result<(), String> {
        match step {
            "3 levels alone" => self.registers.levels.four = false,
            "image one byte shorter" => self.image.truncate(self.image.len() - 1),
            "buffer one byte shorter" => self.records.truncate(self.records.len() - 1),
            "record nine times" => (0..9).for_each(|_| self.record()),
            _ => return Err(format!("not understood: {step}")),
        }
        Ok(())
    }

    fn edit(&mut self, address: u64, word: u64) -> Result<(), String> {
        let from = address as usize;
        let bytes = self
            .image
            .get_mut(from..from + 8)
            .ok_or("outside the image")?;
        bytes.copy_from_slice(&word.to_le_bytes());
        Ok(())
    }

    fn switch(&mut self, name: &str, on: bool) -> Result<(), String> {
        let register = match name {
            "TE" => &mut self.registers.te,
            "IRE" => &mut self.registers.ire,
            "EIME" => &mut self.registers.eime,
            "posting" => &mut self.registers.posting,
            _ => return Err(format!("no switch: {name}")),
        };
        *register = on;
        Ok(())
    }

    fn memory(&mut self, address: u64, write: bool) {
        let (source, kind) = (self.source, u8::from(write));
        self.before.clone_from(&self.image);
        self.request = Some(Request::Memory {
            source,
            address,
            write,
        });
        let registers = self.registers.to_bytes();
        interface::memory_request(
            &registers,
            &interface::flat(self.image.len()),
            &self.image,
            source,
            address,
            kind,
            &mut self.answer,
        );
    }

    fn translation(&mut self, address: u64) {
        let source = self.source;
        self.before.clone_from(&self.image);
        self.request = Some(Request::Translation { source, address });
        let registers = self.registers.to_bytes();
        interface::translation_request(
            &registers,
            &interface::flat(self.image.len()),
            &self.image,
            source,
            address,
            &mut self.answer,
        );
    }

    fn interrupt(&mut self, address: u64) {
        let (source, data) = (self.source, self.message);
        self.before.clone_from(&self.image);
        self.request = Some(Request::Interrupt {
            source,
            address,
            data,
        });
        let registers = self.registers.to_bytes();
        interface::interrupt_request(
            &registers,
            &interface::flat(self.image.len()),
            &mut self.image,
            source,
            address,
            data,
            &mut self.answer,
        );
    }

    fn record(&mut self) {
        self.status = Some(interface::record(
            &self.answer,
            &mut self.records,
            &mut self.state,
        ));
    }

    fn clear(&mut self, slot: u8) {
        self.status = Some(interface::clear_slot(&mut self.records, &self.state, slot));
    }
}
