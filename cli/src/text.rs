//! The words of a text, and the numbers among them. What isn't as expected is told in words.

use std::str::SplitWhitespace;

/// The lines that say something, by their numbers from 1, each without its comment.
pub fn lines(text: &str) -> impl Iterator<Item = (usize, &str)> {
    let uncommented = text
        .lines()
        .map(|line| line.split('#').next().unwrap_or(""));
    (1..)
        .zip(uncommented)
        .filter(|(_, line)| !line.trim().is_empty())
}

/// The words of a line that are still to be read.
pub struct Words<'a>(std::iter::Peekable<SplitWhitespace<'a>>);

impl<'a> Words<'a> {
    pub fn of(line: &'a str) -> Self {
        Self(line.split_whitespace().peekable())
    }

    /// The next word, which may be missing.
    pub fn next(&mut self) -> Option<&'a str> {
        self.0.next()
    }

    /// Whether the next word is this one; then it has been read.
    pub fn take(&mut self, word: &str) -> bool {
        self.0
            .next_if(|next| next.eq_ignore_ascii_case(word))
            .is_some()
    }

    /// The next word, which has to be there.
    pub fn word(&mut self, wanted: &str) -> Result<&'a str, String> {
        let end = || expected(wanted, "the end of the line");
        self.next().ok_or_else(end)
    }

    /// The next word, a hexadecimal number up to a bound.
    pub fn hex(&mut self, wanted: &str, most: u64) -> Result<u64, String> {
        hex(self.word(wanted)?, wanted, most)
    }

    /// The next word, a decimal number of 8 bits.
    pub fn decimal(&mut self, wanted: &str) -> Result<u8, String> {
        let word = self.word(wanted)?;
        let number = || quoted(&format!("{wanted}, 0 to 255 in decimal"), word);
        word.parse().map_err(|_| number())
    }

    /// The next word, `on` or `off`.
    pub fn switch(&mut self, name: &str) -> Result<bool, String> {
        let wanted = format!("`on` or `off` after {name}");
        match self.word(&wanted)? {
            on if on.eq_ignore_ascii_case("on") => Ok(true),
            off if off.eq_ignore_ascii_case("off") => Ok(false),
            other => Err(quoted(&wanted, other)),
        }
    }

    /// The next word, a list with commas of some of these words, or `none`: which of them are in it.
    pub fn some_of<const N: usize>(&mut self, names: [&str; N]) -> Result<[bool; N], String> {
        let wanted = format!("some of {} with commas between, or none", names.join(", "));
        let list = self.word(&wanted)?;
        let mut found = [false; N];
        if list.eq_ignore_ascii_case("none") {
            return Ok(found);
        }
        for item in list.split(',') {
            let place = names
                .iter()
                .position(|name| name.eq_ignore_ascii_case(item));
            found[place.ok_or_else(|| quoted(&wanted, list))?] = true;
        }
        Ok(found)
    }
}

/// A hexadecimal number up to a bound: `1000`, `0x1000` or `1000h`.
pub fn hex(word: &str, wanted: &str, most: u64) -> Result<u64, String> {
    let digits = word.strip_prefix("0x").unwrap_or(word);
    let digits = digits.strip_suffix('h').unwrap_or(digits);
    let plain = !digits.is_empty() && digits.bytes().all(|digit| digit.is_ascii_hexdigit());
    if !plain {
        return Err(quoted(&format!("{wanted} in hexadecimal"), word));
    }
    match u64::from_str_radix(digits, 16) {
        Ok(number) if number <= most => Ok(number),
        _ => Err(quoted(&format!("{wanted}, at most {most:X}"), word)),
    }
}

/// What was expected, and what stands there.
pub fn expected(wanted: &str, found: &str) -> String {
    format!("expected {wanted}, found {found}")
}

/// The same of a word.
pub fn quoted(wanted: &str, word: &str) -> String {
    expected(wanted, &format!("`{word}`"))
}
