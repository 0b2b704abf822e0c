//! Page tables built by a list of pages to map and unmap, with what is mapped before and after.

use crate::map;
use crate::setting::Setting;
use crate::text::{self, quoted, Words};
use galitzaf::{Item, Page, PageSize, Region, TableBuilder, Unit};

const STEP: &str =
    "a register, `size`, `window`, ADDRESS=WORD, `source`, `region`, `map`, `unmap` or `build`";

/// What the steps of texts come to.
#[derive(Default)]
pub struct Building {
    setting: Setting,
    region: Option<Region>,
    items: Vec<Item>,
    lines: String,
    begun: bool,
    /// A list was refused.
    pub refused: bool,
}

impl Building {
    /// Takes the steps of a text.
    pub fn take_all(&mut self, name: &str, text: &str) -> Result<(), String> {
        for (number, line) in text::lines(text) {
            let told = |message| format!("{name}:{number}: {message}");
            let mut words = Words::of(line);
            while let Some(word) = words.next() {
                self.step(word, &mut words).map_err(told)?;
            }
        }
        Ok(())
    }

    fn step(&mut self, word: &str, words: &mut Words) -> Result<(), String> {
        match word.to_ascii_lowercase().as_str() {
            "region" => {
                self.region = Some(Region {
                    start: words.hex("a region's host address", u64::MAX)?,
                    size: words.hex("a region's size", u64::MAX)?,
                });
            }
            "map" => {
                let (place, size) = (words.hex("an address", u64::MAX)?, size(words)?);
                let frame = words.hex("a frame", u64::MAX)?;
                let [read, write] = rights(words)?;
                self.items.push(Item::map(
                    place,
                    Page {
                        frame,
                        size,
                        read,
                        write,
                    },
                ));
            }
            "unmap" => {
                let place = words.hex("an address", u64::MAX)?;
                self.items.push(Item::unmap(place, size(words)?));
            }
            "build" => return self.build(),
            _ => {
                if self.setting.step(word, words)?.is_some() {
                    return Err(quoted(STEP, word));
                }
            }
        }
        Ok(())
    }

    /// Takes the list that the steps so far made.
    fn build(&mut self) -> Result<(), String> {
        let region = self.region.ok_or("expected a `region` before it")?;
        if !self.begun {
            self.lines += &map::listing(&mut self.setting);
            self.begun = true;
        }
        let items = std::mem::take(&mut self.items);
        let mut builder = TableBuilder::new(self.setting.source, region);
        builder.extend(items.iter().copied());
        let unit = Unit::new(&self.setting.registers);
        let said = builder.build(&unit, &mut self.setting.memory.lent());
        for item in &items {
            self.lines += &format!("{item}\n");
        }
        match said {
            Ok(()) => self.lines += &format!("done: {} items\n", items.len()),
            Err(error) => {
                self.lines += &format!("refused: {error}\n");
                self.refused = true;
            }
        }
        self.lines += &map::listing(&mut self.setting);
        Ok(())
    }

    /// The lines: what is mapped at first, then each list with what came of it and what is mapped then.
    pub fn lines(mut self) -> Result<(String, bool), String> {
        if !self.items.is_empty() || !self.begun {
            self.build()?;
        }
        Ok((self.lines, self.refused))
    }
}

fn size(words: &mut Words) -> Result<PageSize, String> {
    let wanted = "a size, 1000, 200000 or 40000000";
    let word = words.word(wanted)?;
    let sizes = [PageSize::FourKiB, PageSize::TwoMiB, PageSize::OneGiB];
    let bytes = text::hex(word, wanted, u64::MAX)?;
    let size = sizes.into_iter().find(|size| size.bytes() == bytes);
    size.ok_or_else(|| quoted(wanted, word))
}

fn rights(words: &mut Words) -> Result<[bool; 2], String> {
    let wanted = "rights, RW, R-, -W or --";
    match words.word(wanted)?.to_ascii_uppercase().as_str() {
        "RW" => Ok([true, true]),
        "R-" => Ok([true, false]),
        "-W" => Ok([false, true]),
        "--" => Ok([false, false]),
        other => Err(quoted(wanted, other)),
    }
}
