//! What the steps of a text make: registers, memory and who asks; and the requests among them.

use crate::answer;
use crate::memory::{Memory, LONGEST};
use crate::text::{self, expected, hex, quoted, Words};
use galitzaf::{InterruptRequest, Levels, MemoryRequest, Registers, SourceId};
use galitzaf::{Traced, TranslationRequest, Unit, Window};

/// What is to be answered.
pub enum Request {
    Memory(MemoryRequest),
    Translation(TranslationRequest),
    Interrupt(InterruptRequest),
    /// A take, from the descriptor at a host address.
    Take(u64),
    /// The word at a host address.
    Word(u64),
}

/// What has been set so far.
#[derive(Default)]
pub struct Setting {
    pub registers: Registers,
    pub source: SourceId,
    pub memory: Memory,
}

const ADDRESS: &str = "an address";
const STEP: &str = "a step (a register, `size`, `window`, ADDRESS=WORD, `source` or a request)";

impl Setting {
    /// Takes the steps of a text and answers its requests, a line each.
    pub fn answer_all(&mut self, name: &str, text: &str) -> Result<String, String> {
        let mut answers = String::new();
        self.each(name, text, |setting, request| {
            answers += &setting.answer(&request);
            answers.push('\n');
        })?;
        Ok(answers)
    }

    /// The same, and what is traced of them: requests of devices with their answers.
    pub fn trace_all(&mut self, name: &str, text: &str) -> Result<Vec<Traced>, String> {
        let mut traced = Vec::new();
        self.each(name, text, |setting, request| {
            traced.extend(setting.traced(&request));
        })?;
        Ok(traced)
    }

    /// Takes the steps of a text, and hands on each request as it comes.
    fn each(
        &mut self,
        name: &str,
        text: &str,
        mut asked: impl FnMut(&mut Self, Request),
    ) -> Result<(), String> {
        for (number, line) in text::lines(text) {
            let told = |message| format!("{name}:{number}: {message}");
            let mut words = Words::of(line);
            while let Some(word) = words.next() {
                if let Some(request) = self.step(word, &mut words).map_err(told)? {
                    asked(self, request);
                }
            }
        }
        Ok(())
    }

    /// A request with its answer. A take is no device's, but it changes memory.
    fn traced(&mut self, request: &Request) -> Option<Traced> {
        let unit = Unit::new(&self.registers);
        let mut memory = self.memory.lent();
        match *request {
            Request::Memory(asked) => Some(Traced::Memory(asked, unit.memory(&memory, asked))),
            Request::Translation(asked) => {
                Some(Traced::Translation(asked, unit.translation(&memory, asked)))
            }
            Request::Interrupt(asked) => {
                Some(Traced::Interrupt(asked, unit.interrupt(&mut memory, asked)))
            }
            Request::Take(at) => {
                let _ = unit.take(&mut memory, at);
                None
            }
            Request::Word(_) => None,
        }
    }

    /// Takes the steps of a text that has no requests.
    pub fn set_all(&mut self, name: &str, text: &str) -> Result<(), String> {
        for (number, line) in text::lines(text) {
            let told = |message| format!("{name}:{number}: {message}");
            let mut words = Words::of(line);
            while let Some(word) = words.next() {
                if self.step(word, &mut words).map_err(told)?.is_some() {
                    let wanted = "a register, `size`, `window`, ADDRESS=WORD or `source`";
                    return Err(told(quoted(wanted, word)));
                }
            }
        }
        Ok(())
    }

    /// Takes one step, which begins with this word. A request is handed back.
    pub fn step(&mut self, word: &str, words: &mut Words) -> Result<Option<Request>, String> {
        if let Some((address, value)) = word.split_once('=') {
            self.store(
                hex(address, ADDRESS, u64::MAX)?,
                hex(value, "a word", u64::MAX)?,
            )?;
            return Ok(None);
        }
        let name = word.to_ascii_lowercase();
        match name.as_str() {
            "source" => self.source = source(words.word("a source id")?)?,
            "size" => self.memory.size(words.hex("a size", LONGEST)? as usize),
            "window" => self.memory.window(window(words)?)?,
            "read" | "write" | "translate" | "interrupt" | "take" | "word" => {
                return self.request(&name, words).map(Some);
            }
            _ => self.register(word, &name, words)?,
        }
        Ok(None)
    }

    fn register(&mut self, word: &str, name: &str, words: &mut Words) -> Result<(), String> {
        let registers = &mut self.registers;
        match name {
            "haw" => registers.haw = words.decimal("HAW")?,
            "mgaw" => registers.mgaw = words.decimal("MGAW")?,
            "s" => registers.s = words.decimal("S")?,
            "root-table" => registers.root_table = words.hex(ADDRESS, u64::MAX)?,
            "interrupt-table" => registers.interrupt_table = words.hex(ADDRESS, u64::MAX)?,
            "levels" => {
                let [three, four, five] = words.some_of(["3", "4", "5"])?;
                registers.levels = Levels { three, four, five };
            }
            "pages" => [registers.pages_2m, registers.pages_1g] = words.some_of(["2M", "1G"])?,
            "posting" => registers.posting = words.switch("posting")?,
            "te" => registers.te = words.switch("TE")?,
            "ire" => registers.ire = words.switch("IRE")?,
            "eime" => registers.eime = words.switch("EIME")?,
            "cfis" => registers.cfis = words.switch("CFIS")?,
            _ => return Err(quoted(STEP, word)),
        }
        Ok(())
    }

    fn request(&self, name: &str, words: &mut Words) -> Result<Request, String> {
        let address = words.hex(ADDRESS, u64::MAX)?;
        let source = self.source;
        Ok(match name {
            "read" => Request::Memory(MemoryRequest::read(source, address)),
            "write" => Request::Memory(MemoryRequest::write(source, address)),
            "translate" => Request::Translation(TranslationRequest::new(source, address)),
            "take" => Request::Take(address),
            "word" => Request::Word(address),
            _ => {
                let data = if words.take("data") {
                    words.hex("data", u32::MAX.into())? as u32
                } else {
                    0
                };
                Request::Interrupt(InterruptRequest::new(source, address, data))
            }
        })
    }

    fn store(&mut self, address: u64, word: u64) -> Result<(), String> {
        if address % 8 != 0 {
            return Err(expected(
                "an address that is a multiple of 8",
                &format!("{address:X}"),
            ));
        }
        if !self.memory.store(address, word) {
            let wanted = "a word whole in the memory that `size` and `window` gave";
            return Err(expected(wanted, &format!("one at {address:X}")));
        }
        Ok(())
    }

    /// The line of a request and its answer.
    fn answer(&mut self, request: &Request) -> String {
        let unit = Unit::new(&self.registers);
        let mut memory = self.memory.lent();
        let bad = unit.first_bad(&memory);
        match *request {
            Request::Memory(asked) => answer::memory(asked, unit.memory(&memory, asked), bad),
            Request::Translation(asked) => {
                answer::translation(asked, unit.translation(&memory, asked), bad)
            }
            Request::Interrupt(asked) => {
                answer::interrupt(asked, unit.interrupt(&mut memory, asked), bad)
            }
            Request::Take(at) => answer::take(at, unit.take(&mut memory, at), bad),
            Request::Word(at) => answer::word(at, self.memory.word(at)),
        }
    }
}

/// A source id, as 0310 or as 03:02.0.
fn source(word: &str) -> Result<SourceId, String> {
    let parts = word.split_once(':').and_then(|(bus, rest)| {
        let (device, function) = rest.split_once('.')?;
        let number = |part| u8::from_str_radix(part, 16).ok();
        let (bus, device, function) = (number(bus)?, number(device)?, number(function)?);
        (device < 32 && function < 8).then_some(SourceId::new(bus, device << 3 | function))
    });
    if let Some(source) = parts {
        return Ok(source);
    }
    let wanted = "a source id, as 0310 or 03:02.0";
    Ok(SourceId::from(hex(word, wanted, u16::MAX.into())? as u16))
}

fn window(words: &mut Words) -> Result<Window, String> {
    let mut number = |wanted| words.hex(wanted, u64::MAX);
    Ok(Window {
        start: number("a window's host address")?,
        offset: number("a window's offset")?,
        length: number("a window's length")?,
    })
}
