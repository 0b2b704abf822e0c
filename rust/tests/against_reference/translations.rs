//! Translation requests.

use crate::common::Random;
use crate::image::{self, cut, length};
use crate::memory::{address, tables};
use crate::met::{expect_met, Met};
use crate::{outcome, registers, CASES};
use galitzaf::{Memory, SourceId, TranslationRequest, Unit};
use reference::{translation_request, translation_request_in, Translation};

fn meet(met: &mut Met, translation: &Translation) {
    let name = match translation {
        Translation::Answered {
            size, read, write, ..
        } => format!("{size:X} {} {}", u8::from(*read), u8::from(*write)),
        Translation::Blocked(fault) if !fault.recordable => format!("{:02X} silent", fault.reason),
        Translation::Blocked(fault) => format!("{:02X}", fault.reason),
        Translation::Refused(number) => format!("refused {number}"),
        Translation::Passed(_) => "passed".into(),
    };
    *met.entry(name).or_default() += 1;
}

#[test]
fn translation_requests() {
    let mut random = Random(0x7A95);
    let mut met = Met::new();
    for _ in 0..CASES {
        let registers = registers::any(&mut random);
        let source = SourceId::from(random.word() as u16);
        let address = address(&mut random);
        let types = [1, 1, 1, 1, 1, 1, 0, 2, 3];
        let mut image = tables(&mut random, &registers, source, address, &types);
        image.truncate(length(&mut random));
        let request = TranslationRequest::new(source, address);
        let unit = Unit::new(&registers);
        let ours = outcome::of_translation(unit.translation(&Memory::flat(&image), request));
        let (theirs, id) = (registers::theirs(&registers), source.into());
        let expected = translation_request(&theirs, &image, id, address);
        assert_eq!(ours, expected, "{registers:?} {request:?}");
        meet(&mut met, &ours);

        let (windows, run) = cut(&mut random, &image);
        let ours = outcome::of_translation(unit.translation(&Memory::new(&run, &windows), request));
        let shown = image::theirs(&windows);
        let expected = translation_request_in(&theirs, &shown, &run, id, address);
        assert_eq!(ours, expected, "{registers:?} {windows:?} {request:?}");
    }
    for size in ["1000", "200000", "40000000"] {
        for rights in ["1 0", "0 1", "1 1"] {
            expect_met(&met, &[&format!("{size} {rights}")]);
        }
    }
    let others = ["0 0 0", "passed", "refused 1", "refused 2", "refused 4"];
    expect_met(&met, &others);
    let faults = ["01", "02", "03", "07", "08", "09", "0A", "0B", "0C", "0D"];
    expect_met(&met, &faults);
    let silent = [
        "02 silent",
        "03 silent",
        "07 silent",
        "0C silent",
        "0D silent",
    ];
    expect_met(&met, &silent);
}
