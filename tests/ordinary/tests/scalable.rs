//! The ordinary translator's scalable mode against the reference.

mod common;

use cases::scalable::{any, fixed, Laid};
use cases::Random;
use common::{memory, registers};
use ordinary::{scalable_request, Capabilities, ScalableRequest, Window};
use reference::Outcome;

fn capabilities(r: &reference::ScalableRegisters) -> Capabilities {
    Capabilities {
        flts: r.flts,
        slts: r.slts,
        nest: r.nest,
        pt: r.pt,
        fl5lp: r.fl5lp,
        fl1gp: r.fl1gp,
        slads: r.slads,
        eafs: r.eafs,
        srs: r.srs,
        smpwc: r.smpwc,
    }
}

/// Whether a request was granted.
fn compare(laid: &mut Laid, number: u64) -> u64 {
    let window = |w: &reference::Window| Window {
        start: w.start,
        offset: w.from,
        length: w.length,
    };
    let windows: Vec<Window> = laid.windows.iter().map(window).collect();
    let (base, has) = (
        registers(&laid.registers.base),
        capabilities(&laid.registers),
    );
    let mut granted = 0;
    for request in laid.requests.clone() {
        let mut ours = laid.run.clone();
        let asked = ScalableRequest {
            source: request.source,
            address: request.address,
            write: request.write,
            pasid: request.pasid,
        };
        let answer = memory(scalable_request(&base, &has, &windows, &mut ours, asked));
        let expected =
            reference::scalable_request(&laid.registers, &laid.windows, &mut laid.run, request);
        assert_eq!(answer, expected, "case {number}: {request:X?}");
        assert!(
            ours == laid.run,
            "case {number}: another run after {request:X?}"
        );
        granted += u64::from(matches!(expected, Outcome::Granted(_)));
    }
    granted
}

#[test]
fn tables_of_any_kind() {
    let compared = |n| compare(&mut any(&mut Random::of("ordinary-scalable", n)), n);
    let granted: u64 = (0..40_000).map(compared).sum();
    assert!(granted > 5_000, "{granted} granted");
}

#[test]
fn fixed_tables() {
    for kind in 0..3 {
        let mut laid = fixed(kind);
        let requests = laid.requests.len() as u64;
        assert_eq!(compare(&mut laid, kind), requests);
    }
}
