//! `differential [--until-difference] [CASES] [SEED]` compares the proved checker with the
//! independent one on files at the limits, the examples, CASES random files, and files of very
//! many states. With `--until-difference` it ends at the first difference and asserts nothing else.

use differential::compare::{proved_check, Answers, Case, Facts};
use differential::generate::{self, Random, Samples};
use differential::tally::{self, Tally};
use differential::{large, limits, samples};
use std::panic::{catch_unwind, AssertUnwindSafe};
use std::process::{exit, ExitCode};

const CASES: u64 = 300_000;
const SEED: u64 = 0x5eed;
/// A line tells of the progress after so many files.
const PROGRESS: u64 = 100_000;
/// An example is checked as a whole that has at most so many tests.
const EXAMPLE_TESTS: usize = 3_000_000;
/// So many differing files are shown.
const SHOWN: usize = 5;
/// Shrinking such a file reads at most this many bytes.
const WORK: usize = 50_000_000;
/// The longest run of records that shrinking tries at every record.
const SHORT: usize = 16;

struct Options {
    until_difference: bool,
    cases: u64,
    seed: u64,
}

fn options() -> Option<Options> {
    let mut arguments: Vec<String> = std::env::args().skip(1).collect();
    let before = arguments.len();
    arguments.retain(|argument| argument != "--until-difference");
    let until_difference = arguments.len() < before;
    let mut numbers = arguments.iter().map(|text| text.parse().ok());
    let cases = numbers.next().unwrap_or(Some(CASES))?;
    let seed = numbers.next().unwrap_or(Some(SEED))?;
    numbers.next().is_none().then_some(Options {
        until_difference,
        cases,
        seed,
    })
}

fn main() -> ExitCode {
    let options = match options() {
        Some(options) => options,
        None => {
            eprintln!("differential [--until-difference] [CASES] [SEED]");
            return ExitCode::from(2);
        }
    };
    println!("seed {}, {} random files", options.seed, options.cases);
    let mut run = Run {
        options,
        files: 0,
        shown: 0,
        tests: Vec::new(),
    };
    run.limits();
    run.examples();
    let tally = run.random();
    run.large();
    if run.options.until_difference {
        println!("no difference in {} files", run.files);
        return ExitCode::SUCCESS;
    }
    run.greatest();
    tally.print();
    if run.options.cases >= tally::FILES {
        run.tests.extend(tally.tests(run.options.cases));
    } else {
        println!("what came up is asserted from {} files on", tally::FILES);
    }
    run.end()
}

struct Run {
    options: Options,
    /// How many files were compared.
    files: u64,
    shown: usize,
    tests: Vec<(String, bool)>,
}

/// A case with what the independent implementation finds.
struct Asked {
    case: Case,
    facts: Facts,
    answers: Answers,
}

impl Run {
    /// The limits, read as they must be.
    fn limits(&mut self) {
        for (number, limit) in limits::cases().into_iter().enumerate() {
            let random = &mut Random::new(0, number as u64);
            let asked = self.compare(&limit.name, || asked(random, limit.file, None));
            let as_expected = asked.map(|Asked { facts, .. }| {
                let refusal = facts.reading.err();
                refusal.map(|refusal| (refusal.number, refusal.place)) == limit.refusal
            });
            self.test(limit.name, as_expected == Some(true));
        }
    }

    fn examples(&mut self) {
        for (name, file) in samples() {
            let random = &mut Random::new(0, 0);
            let asked = self.compare(&name, || asked(random, file, Some(EXAMPLE_TESTS)));
            let same = asked.is_some();
            self.test(format!("example {name}"), same);
        }
    }

    fn random(&mut self) -> Tally {
        let mut tally = Tally::default();
        let samples = Samples {
            examples: samples().into_iter().map(|(_, file)| file).collect(),
            limits: limits::cases()
                .into_iter()
                .map(|limit| limit.file)
                .collect(),
        };
        let Options { cases, seed, .. } = self.options;
        let mut differing = 0;
        for number in 0..cases {
            let asked = self.compare(&format!("random file {number}"), || {
                let random = &mut Random::new(seed, number);
                let file = generate::file(random, &samples);
                asked(random, file, None)
            });
            match asked {
                Some(asked) => tally.count(&asked.case, &asked.facts, &asked.answers),
                None => differing += 1,
            }
            if (number + 1) % PROGRESS == 0 {
                eprintln!("{} files, {differing} differ", number + 1);
            }
        }
        self.test(format!("{cases} random files"), differing == 0);
        tally
    }

    fn large(&mut self) {
        for large in large::cases() {
            let random = &mut Random::new(0, 0);
            let file = large.file.clone();
            let asked = self.compare(&large.name, || asked(random, file, Some(usize::MAX)));
            let answer = asked.and_then(|Asked { answers, .. }| answers.check);
            let as_expected = answer.map(|(verdict, _)| large.expects(&verdict));
            self.test(large.name, as_expected == Some(true));
        }
    }

    /// Asked of the proved checker alone: the other takes over half a minute.
    fn greatest(&mut self) {
        let large = large::greatest();
        let verdict = proved_check(&large.file, &mut [0; 32]);
        self.test(large.name.clone(), large.expects(&verdict));
    }

    fn test(&mut self, name: String, passes: bool) {
        self.tests.push((name, passes));
    }

    /// Compares what is asked, and gives it back if the answers are the same. A panic of the
    /// independent implementation is a difference.
    fn compare(&mut self, name: &str, ask: impl FnOnce() -> Asked) -> Option<Asked> {
        let asked = catch_unwind(AssertUnwindSafe(ask)).ok();
        let same = match &asked {
            Some(asked) => asked.case.proved() == asked.answers,
            None => false,
        };
        if !same && self.options.until_difference {
            println!("difference after {} files: {name}", self.files);
            exit(1);
        }
        if !same && self.shown < SHOWN {
            self.shown += 1;
            match &asked {
                Some(asked) => show(name, &shrink(&asked.case)),
                None => println!("{name}: the independent implementation panics"),
            }
        }
        self.files += 1;
        asked.filter(|_| same)
    }

    fn end(self) -> ExitCode {
        let failed = self.tests.iter().filter(|(_, passes)| !passes);
        for (name, _) in failed.clone() {
            println!("failed: {name}");
        }
        let failed = failed.count();
        println!("{} passed, {failed} failed", self.tests.len() - failed);
        ExitCode::from(u8::from(failed > 0))
    }
}

/// Asks about a file, and the independent implementation answers. If there are at most so many
/// tests, the check is sure to be made, with room for the report.
fn asked(random: &mut Random, file: Vec<u8>, sure: Option<usize>) -> Asked {
    let facts = Facts::of(&file);
    let mut case = Case::random(random, file, &facts);
    if sure.map_or(false, |most| facts.tests() <= most) {
        case.check = true;
        (case.bytes, case.room) = (vec![0xa5; 64], 40);
    }
    let check = case.checked(independent::check);
    // One of the single tests is of the broken condition, if there is one.
    match &check {
        Some((verdict, _)) if (13..=18).contains(&verdict.number) => {
            case.singles[0].0 = verdict.at as usize
        }
        _ => (),
    }
    let singles = case.tested(independent::single);
    Asked {
        case,
        facts,
        answers: Answers { check, singles },
    }
}

/// Deletes runs of records while the answers still differ: long runs, then ever shorter ones.
fn shrink(case: &Case) -> Case {
    let mut case = case.clone();
    let mut work = WORK;
    let mut run = (case.file.len() / 8).max(1);
    while run > 0 {
        let before = case.file.len();
        let mut at = 0;
        while at < case.file.len() && work > case.file.len() {
            work -= case.file.len();
            let file = case.file.clone();
            case.file.drain(at..file.len().min(at + 8 * run));
            if !still_differs(&case) {
                case.file = file;
                // Long runs next to each other; of short ones all, for one may be an expression.
                at += 8 * if run > SHORT { run } else { 1 };
            }
        }
        run = if run > SHORT { run / 2 } else { run - 1 };
        if run == 0 && case.file.len() < before {
            run = SHORT;
        }
    }
    case
}

fn still_differs(case: &Case) -> bool {
    let differs =
        AssertUnwindSafe(|| (Facts::of(&case.file).short() || !case.check) && case.differs());
    catch_unwind(differs).unwrap_or(false)
}

fn show(name: &str, case: &Case) {
    println!("{name} differs, shrunk to {} bytes:", case.file.len());
    for record in case.file.chunks(8) {
        let digits: String = record.iter().map(|byte| format!("{byte:02x}")).collect();
        print!(" {digits}");
    }
    println!("\n  room {}, single tests {:?}", case.room, case.singles);
    println!("  proved       {:?}", case.proved());
    println!("  independent  {:?}", case.independent());
}
