//! The three that check a file.

use vd::Verdict;

pub struct Engine {
    pub name: &'static str,
    pub check: fn(&[u8]) -> Verdict,
}

pub const ENGINES: [Engine; 3] = [
    Engine {
        name: "proved",
        check: vd::check,
    },
    Engine {
        name: "loops",
        check: loops,
    },
    Engine {
        name: "independent",
        check: independent,
    },
];

extern "C" {
    fn vd_loops(file: *const u8, length: usize) -> Verdict;
}

fn loops(file: &[u8]) -> Verdict {
    // SAFETY: pointer and length are those of a slice, which the library only reads.
    unsafe { vd_loops(file.as_ptr(), file.len()) }
}

fn independent(file: &[u8]) -> Verdict {
    let verdict = independent::check(file, &mut [0; independent::REPORT_LENGTH]);
    Verdict {
        number: verdict.number,
        node: verdict.node,
        transition: verdict.transition,
        at: verdict.at,
        values: verdict.values,
        tests: verdict.tests,
    }
}
