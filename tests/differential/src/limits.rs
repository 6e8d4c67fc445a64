//! Files at each limit and one past it, with divisors and picks that can and can't be such, and with
//! starts that can and can't happen, with how they must be read.

use crate::generate::{
    constant, join, plain, record, truth_of_size, value, Code, Draft, Edge, Pick, Random, Record,
    Transition, CHAIN, INVARIANCE, RECORDS, WAIT_FOR,
};

pub struct Limit {
    pub name: String,
    pub file: Vec<u8>,
    /// The refusal's number and place; nothing if the file is readable.
    pub refusal: Option<(u8, u32)>,
}

pub fn cases() -> Vec<Limit> {
    let mut list = List(Vec::new());
    variables(&mut list);
    transitions(&mut list);
    nodes(&mut list);
    edges(&mut list);
    records(&mut list);
    levels(&mut list);
    states(&mut list);
    intervals(&mut list);
    divisors(&mut list);
    divided_intervals(&mut list);
    starts(&mut list);
    starts_and_others(&mut list);
    picks(&mut list);
    picks_again(&mut list);
    picks_elsewhere(&mut list);
    combinations(&mut list);
    combinations_and_others(&mut list);
    list.0
}

struct List(Vec<Limit>);

impl List {
    fn readable(&mut self, name: &str, records: Vec<Record>) {
        self.add(name, records.concat(), None);
    }

    fn refused(&mut self, name: &str, records: Vec<Record>, number: u8, place: usize) {
        self.add(name, records.concat(), Some((number, place as u32)));
    }

    fn add(&mut self, name: &str, file: Vec<u8>, refusal: Option<(u8, u32)>) {
        let name = name.to_string();
        self.0.push(Limit {
            name,
            file,
            refusal,
        });
    }
}

fn always() -> Code {
    vec![plain(0x20)]
}

/// One variable in 0..1, no transitions, and everything true. Its records: 0 variable, 1 start,
/// 2 true, then transitions, property, truths, nodes.
fn draft(property: u8, nodes: usize) -> Draft {
    let truths = match property {
        INVARIANCE => 1,
        WAIT_FOR => nodes + 1,
        _ => 2,
    };
    Draft {
        ranges: vec![(0, 1)],
        start: always(),
        transitions: Vec::new(),
        property,
        b: if property == WAIT_FOR {
            nodes as i16
        } else {
            0
        },
        truths: vec![always(); truths],
        nodes: vec![always(); nodes],
        edges: Vec::new(),
    }
}

/// Just, with a true guard and no assignment: two records.
fn idle() -> Transition {
    Transition::new(true, always())
}

/// A double edge from each node to node 0, as a chain needs them.
fn double_edges(nodes: usize) -> Vec<Edge> {
    let edge = |from| Edge {
        transition: 0,
        from,
        to: 0,
        double: true,
    };
    (1..nodes).map(edge).collect()
}

/// C1.4: the records with byte 7 set in one.
fn with_field(mut records: Vec<Record>, place: usize) -> Vec<Record> {
    records[place][7] = 1;
    records
}

/// C1.6, C10.5, C11.3.
fn variables(list: &mut List) {
    let variables = |count| {
        let mut draft = draft(INVARIANCE, 1);
        draft.ranges = vec![(-5, -4); count];
        draft.records()
    };
    list.readable("12 variables", variables(12));
    list.refused("13 variables", variables(13), 5, 12);
    list.refused("field of variable 13", with_field(variables(13), 12), 4, 12);
}

/// C1.8, C10.5, C11.3.
fn transitions(list: &mut List) {
    for property in [INVARIANCE, WAIT_FOR, CHAIN] {
        let transitions = |count| {
            let mut draft = draft(property, 1);
            draft.transitions = vec![idle(); count];
            draft.records()
        };
        let name = |text| format!("{text}, property {property}");
        list.readable(&name("32 transitions"), transitions(32));
        let place = 3 + 2 * 32;
        list.refused(&name("33 transitions"), transitions(33), 5, place);
        let bad = with_field(transitions(33), place);
        list.refused(&name("field of transition 33"), bad, 4, place);
    }
}

/// C1.11, C1.13, C10.5, C11.3, C11.4, C11.5.
fn nodes(list: &mut List) {
    let invariance = |count| draft(INVARIANCE, count).records();
    let chain = |count| {
        let mut draft = draft(CHAIN, count);
        draft.transitions = vec![idle()];
        draft.edges = double_edges(count);
        draft.records()
    };
    for (name, file, first) in [
        (
            "invariance",
            &invariance as &dyn Fn(usize) -> Vec<Record>,
            5,
        ),
        ("chain", &chain, 8),
    ] {
        let name = |text| format!("{text}, {name}");
        list.readable(&name("1 node"), file(1));
        list.readable(&name("32 nodes"), file(32));
        let place = first + 2 * 32;
        list.refused(&name("33 nodes"), file(33), 5, place);
        let bad = with_field(file(33), place);
        list.refused(&name("field of node 33"), bad, 4, place);
        let mut none = file(1);
        none.truncate(first);
        list.refused(&name("no node"), none, 3, first);
    }
    for b in [1, 2, 3, 31, 32] {
        let nodes = |count| {
            let mut draft = draft(WAIT_FOR, b);
            draft.nodes = vec![always(); count];
            draft.records()
        };
        let name = |text| format!("{text}, wait-for of {b}");
        list.readable(&name("b nodes"), nodes(b));
        // Variable, start and its truth, property, b + 1 truths, b nodes.
        let place = 4 + (b + 1) + 2 * b;
        list.refused(&name("b + 1 nodes"), nodes(b + 1), 5, place);
        let bad = with_field(nodes(b + 1), place);
        list.refused(&name("field of node b + 1"), bad, 4, place);
        list.refused(&name("b - 1 nodes"), nodes(b - 1), 3, place - 2);
    }
    for b in [-32768, -1, 0, 33, 257, 32767] {
        let mut draft = draft(WAIT_FOR, b.clamp(0, 33) as usize);
        draft.b = b;
        list.refused(&format!("wait-for of {b}"), draft.records(), 4, 3);
    }
}

/// C1.14, C10.5, C10.6, C11.2, C11.3.
fn edges(list: &mut List) {
    let edges = |count| {
        let mut draft = draft(INVARIANCE, 32);
        draft.transitions = vec![idle(); 2];
        let edge = |number: usize| Edge {
            transition: number % 2,
            from: number / 64,
            to: number / 2 % 32,
            double: false,
        };
        draft.edges = (0..count).map(edge).collect();
        draft.records()
    };
    list.readable("512 edges", edges(512));
    // Behind a variable, start, two transitions, property, each with a truth, and 32 nodes.
    let place = 1 + 2 + 4 + 2 + 64 + 512;
    list.refused("513 edges", edges(513), 5, place);
    let mut repeat = edges(513);
    repeat[place] = repeat[place - 1];
    list.refused("edge 513 repeats", repeat, 5, place);
    let bad = with_field(edges(513), place);
    list.refused("field of edge 513", bad, 4, place);
    let mut repeat = edges(512);
    repeat[place - 1] = repeat[place - 512];
    list.refused("edge 512 repeats", repeat, 6, place - 1);
}

/// C10.2.
fn records(list: &mut List) {
    let records = |count| {
        let mut draft = draft(INVARIANCE, 1);
        let others = draft.records().len() - 1;
        draft.start = truth_of_size(&mut Random::new(0, 0), count - others);
        draft.records()
    };
    list.readable("4095 records", records(RECORDS - 1));
    list.readable("4096 records", records(RECORDS));
    list.refused("4097 records", records(RECORDS + 1), 2, 0);
    let file = [records(RECORDS).concat(), vec![0]].concat();
    list.add("4096 records and a byte", file, Some((2, 0)));
}

/// A truth of so many levels, true everywhere.
fn nested_truth(levels: usize) -> Code {
    let last = if levels % 2 == 1 { 0x20 } else { 0x21 };
    [vec![plain(0x22); levels - 1], vec![plain(last)]].concat()
}

/// A number of so many levels, by left or by right operands.
fn nested_number(levels: usize, left: bool) -> Code {
    let mut number = vec![constant(0)];
    for _ in 1..levels {
        let operands = match left {
            true => [number, vec![constant(0)]],
            false => [vec![constant(0)], number],
        };
        number = join(0x12, &[&operands[0], &operands[1]]);
    }
    number
}

/// C2.12, C10.5, C11.3.
fn levels(list: &mut List) {
    // Where a truth may stand, by the number of its first record.
    type Place = fn(&mut Draft) -> &mut Code;
    let truths: [(&str, Place, usize); 5] = [
        ("start", |draft| &mut draft.start, 2),
        ("guard", |draft| &mut draft.transitions[0].guard, 4),
        ("p", |draft| &mut draft.truths[0], 8),
        ("q", |draft| &mut draft.truths[1], 9),
        ("node", |draft| &mut draft.nodes[0], 11),
    ];
    let draft = || {
        let mut draft = draft(CHAIN, 1);
        let assignments = vec![(0, vec![constant(0)])];
        draft.transitions = vec![Transition {
            assignments,
            ..idle()
        }];
        draft
    };
    for (name, place, at) in truths {
        let with = |code: Code| {
            let mut draft = draft();
            *place(&mut draft) = code;
            draft.records()
        };
        let name = |text| format!("{text}, {name}");
        list.readable(&name("16 levels"), with(nested_truth(16)));
        list.refused(&name("17 levels"), with(nested_truth(17)), 5, at + 16);
        let bad = with_field(with(nested_truth(17)), at + 16);
        list.refused(&name("field at level 17"), bad, 4, at + 16);
        let mut bad = with(nested_truth(17));
        bad[at + 16] = constant(0);
        list.refused(&name("number for truth at level 17"), bad, 3, at + 16);
        // An indicator in between: the number's levels count on.
        for levels in [16, 17] {
            let inside = join(0x15, &[&nested_truth(levels - 2)]);
            let records = with(join(0x27, &[&vec![constant(1)], &inside]));
            match levels {
                16 => list.readable(&name("16 levels, indicator"), records),
                _ => list.refused(&name("17 levels, indicator"), records, 5, at + 17),
            }
        }
    }
    for left in [true, false] {
        let with = |number: Code| {
            let mut draft = draft();
            draft.transitions[0].assignments[0].1 = number;
            draft.records()
        };
        // The first record at level 17: each level has one record to the left, or two.
        let at = 6 + if left { 16 } else { 31 };
        let name = |text| format!("{text}, left {left}");
        let number = |levels| nested_number(levels, left);
        list.readable(&name("number of 16 levels"), with(number(16)));
        list.refused(&name("number of 17 levels"), with(number(17)), 5, at);
        let bad = with_field(with(number(17)), at);
        list.refused(&name("field of a number at level 17"), bad, 4, at);
        let mut bad = with(number(17));
        bad[at] = plain(0x21);
        list.refused(&name("truth for number at level 17"), bad, 3, at);
    }
}

/// C4.3, C10.7.
fn states(list: &mut List) {
    let widest = (i16::MIN, i16::MAX);
    let states = |ranges: &[(i16, i16)]| {
        let mut draft = draft(INVARIANCE, 1);
        draft.ranges = ranges.to_vec();
        draft.records()
    };
    list.readable("1023 × 1025 states", states(&[(0, 1022), (0, 1024)]));
    list.readable("1024 × 1024 states", states(&[(0, 1023), (0, 1023)]));
    list.readable("65,536 × 16 states", states(&[widest, (1, 16), (7, 7)]));
    let many = [(-1, 0); 10];
    list.readable(
        "2 to the 10, × 1024",
        states(&[&many[..], &[(-1023, 0)]].concat()),
    );
    let one_more = [(0, 16), (-30_000, 31_680), (0, 1)];
    list.refused("1,048,577 states", states(&one_more), 7, 1);
    list.refused("1024 × 1025 states", states(&[(0, 1023), (0, 1024)]), 7, 1);
    let later = [(0, 1), widest, (0, 7), (0, 1), (0, 1)];
    list.refused("twice as many states", states(&later), 7, 3);
    list.refused("2 to the 48 states", states(&[widest; 3]), 7, 1);
}

/// C3.1, C3.2, C3.3, C3.4, C10.8: intervals that end at a bound, and one past it.
fn intervals(list: &mut List) {
    // A number is compared with itself in the start; its first record is record 3.
    let start = |number: Code| {
        let mut draft = draft(INVARIANCE, 1);
        draft.ranges = vec![(-1, 3)];
        draft.start = join(0x27, &[&number, &number]);
        draft.records()
    };
    let variable = vec![record(0x11, 0, 0, 0, 0)];
    let five = |sign: i64| value(5 * sign);
    for sign in [-1, 1] {
        let bound = 1_000_000 * sign;
        for past in [0, 1] {
            let end = bound + past * sign;
            let factors: (i16, i16) = if past == 0 { (1000, 1000) } else { (101, 9901) };
            let factor = vec![constant(factors.0 * sign as i16)];
            // The variable's ends are -1 and 3, so that it counts for 3 or -1 at the end.
            let (added, taken) = if sign > 0 { (3, -1) } else { (-1, 3) };
            for (name, number) in [
                ("sum", join(0x12, &[&value(end - 5 * sign), &five(sign)])),
                (
                    "sum, swapped",
                    join(0x12, &[&five(sign), &value(end - 5 * sign)]),
                ),
                (
                    "difference",
                    join(0x13, &[&value(end - 5 * sign), &five(-sign)]),
                ),
                (
                    "difference, swapped",
                    join(0x13, &[&five(sign), &value(5 * sign - end)]),
                ),
                (
                    "product",
                    join(0x14, &[&factor, &vec![constant(factors.1)]]),
                ),
                (
                    "sum with a variable",
                    join(0x12, &[&variable, &value(end - added)]),
                ),
                (
                    "difference with a variable",
                    join(0x13, &[&value(end + taken), &variable]),
                ),
            ] {
                let name = format!("{name}, {end}");
                match past {
                    0 => list.readable(&name, start(number)),
                    _ => list.refused(&name, start(number), 8, 3),
                }
            }
        }
        // An indicator's interval is 0..1, whatever its truth.
        for truth in [0x20, 0x21] {
            let indicator = join(0x15, &[&vec![plain(truth)]]);
            let (outward, inward) = if sign > 0 { (0x12, 0x13) } else { (0x13, 0x12) };
            let with = |kind, end| start(join(kind, &[&value(end), &indicator]));
            let name = |text| format!("{text} an indicator of {truth:x}, {bound}");
            list.readable(&name("up to the bound by"), with(outward, bound - sign));
            list.refused(&name("past the bound by"), with(outward, bound), 8, 3);
            list.readable(&name("back from the bound by"), with(inward, bound));
            // Less 1 it is -1..0, or 0..1 the other way round.
            let pair = [indicator.clone(), vec![constant(1)]];
            let [left, right] = if sign > 0 { [1, 0] } else { [0, 1] };
            let other = join(0x13, &[&pair[left], &pair[right]]);
            let past = start(join(0x12, &[&value(bound), &other]));
            list.refused(&name("past the bound by 1 and"), past, 8, 3);
        }
    }
    // A product's least and greatest results may come from any two ends.
    let low_high = [(-1000, 1), (-1, 1001)];
    for (ranges, out) in [
        (low_high, true),
        ([low_high[1], low_high[0]], true),
        ([(-1001, 1), (-1000, 1)], true),
        ([(-1, 1001), (-1, 1000)], true),
        ([(-1000, 1), (-1, 1000)], false),
        ([(-1, 1000), (-1000, 1)], false),
        ([(-1000, 1), (-1000, 1)], false),
        ([(-1, 1000), (-1, 1000)], false),
    ] {
        let mut draft = draft(INVARIANCE, 1);
        draft.ranges = ranges.to_vec();
        let product = join(0x14, &[&variable, &vec![record(0x11, 1, 0, 0, 0)]]);
        draft.start = join(0x27, &[&product, &vec![constant(0)]]);
        let name = format!("product of {ranges:?}");
        // Behind two variables, the start and its comparison.
        match out {
            true => list.refused(&name, draft.records(), 8, 4),
            false => list.readable(&name, draft.records()),
        }
    }
}

/// A draft whose start compares a quotient or remainder of variable 0, in -1..3, with 0. Its
/// records: 0 variable, 1 start, 2 comparison, 3 quotient, 4 variable, 5 divisor.
fn divided(kind: u8, divisor: &Code) -> Draft {
    let mut draft = draft(INVARIANCE, 1);
    draft.ranges = vec![(-1, 3)];
    let number = join(kind, &[&vec![record(0x11, 0, 0, 0, 0)], divisor]);
    draft.start = join(0x27, &[&number, &vec![constant(0)]]);
    draft
}

/// C2.14, C2.15, C10.3, C10.4, C10.19, C11.2.
fn divisors(list: &mut List) {
    for kind in [0x18, 0x19] {
        let records = |divisor: &Code| divided(kind, divisor).records();
        let name = |text: &str| format!("{text}, kind {kind:x}");
        for value in [1, 2, i16::MAX] {
            let by = name(&format!("divisor {value}"));
            list.readable(&by, records(&vec![constant(value)]));
        }
        for value in [0, -1, i16::MIN] {
            let by = name(&format!("divisor {value}"));
            list.refused(&by, records(&vec![constant(value)]), 19, 5);
        }
        let (one, truth) = (vec![constant(1)], always());
        for other in [
            vec![record(0x11, 0, 0, 0, 0)],
            join(0x12, &[&one, &one]),
            join(0x14, &[&one, &one]),
            join(0x15, &[&truth]),
            join(0x18, &[&one, &one]),
            join(0x19, &[&one, &one]),
        ] {
            let by = name(&format!("divisor of kind {:x}", other[0][0]));
            list.refused(&by, records(&other), 19, 5);
            let bad = with_field(records(&other), 5);
            list.refused(&format!("{by}, field"), bad, 4, 5);
            if other.len() > 1 {
                // Its operands aren't read.
                let mut cut = records(&other);
                cut.truncate(6);
                list.refused(&format!("{by}, the file's end"), cut, 19, 5);
                let mut unfit = records(&other);
                unfit[6] = plain(0xff);
                list.refused(&format!("{by}, operand"), unfit, 19, 5);
            }
        }
        let unknown = vec![record(0x11, 1, 0, 0, 0)];
        list.refused(
            &name("unknown variable as divisor"),
            records(&unknown),
            4,
            5,
        );
        list.refused(&name("truth as divisor"), records(&truth), 3, 5);
        for no_kind in [0x16, 0x17, 0x1a] {
            let by = name(&format!("divisor of kind {no_kind:x}"));
            list.refused(&by, records(&vec![plain(no_kind)]), 3, 5);
        }
        let mut cut = records(&one);
        cut.truncate(5);
        list.refused(&name("no divisor"), cut, 3, 5);
        for value in [0, 1] {
            for byte in [1, 4, 5, 6, 7] {
                let mut bad = records(&vec![constant(value)]);
                bad[5][byte] = 1;
                let field = name(&format!("byte {byte} of divisor {value}"));
                list.refused(&field, bad, 4, 5);
            }
        }
        for byte in 1..8 {
            let mut bad = records(&vec![constant(0)]);
            bad[3][byte] = 1;
            let field = name(&format!("byte {byte} of the record"));
            list.refused(&field, bad, 4, 3);
        }
        divisors_and_others(list, kind);
    }
}

/// C2.12, C10.5, C10.6, C10.19, C11.1, C11.2: 19 with 5 and 6 before it and behind it, and with 7
/// and 8.
fn divisors_and_others(list: &mut List, kind: u8) {
    let name = |text: &str| format!("{text}, kind {kind:x}");
    let bad = || divided(kind, &vec![constant(0)]);
    // Operands at level 16 and at level 17, 13 and 14 records before the comparison.
    for (value, nots, refusal) in [
        (2, 13, None),
        (0, 13, Some((19, 18))),
        (2, 14, Some((5, 18))),
        (0, 14, Some((5, 18))),
    ] {
        let mut draft = divided(kind, &vec![constant(value)]);
        draft.start = [vec![plain(0x22); nots], draft.start].concat();
        let name = name(&format!("divisor {value} below {nots} nots"));
        list.add(&name, draft.records().concat(), refusal);
    }
    let mut deep = bad();
    deep.nodes[0] = nested_truth(17);
    list.refused(&name("divisor 0 before level 17"), deep.records(), 19, 5);
    let mut deep = bad();
    deep.nodes[0] = std::mem::replace(&mut deep.start, nested_truth(17));
    list.refused(&name("divisor 0 behind level 17"), deep.records(), 5, 18);

    let one = || vec![constant(1)];
    let twice = |first: Code, second: Code| {
        let mut draft = draft(INVARIANCE, 1);
        draft.transitions = vec![Transition {
            assignments: vec![(0, first), (0, second)],
            ..idle()
        }];
        draft.records()
    };
    let quotient = || join(kind, &[&one(), &vec![constant(0)]]);
    // The assignment is record 5, its number begins at record 6.
    list.refused(
        &name("divisor 0, then assigned again"),
        twice(quotient(), one()),
        19,
        8,
    );
    list.refused(
        &name("assigned again, then divisor 0"),
        twice(one(), quotient()),
        6,
        7,
    );

    let mut many = bad();
    many.ranges.push((0, i16::MAX));
    many.ranges.push((0, i16::MAX));
    list.refused(
        &name("divisor 0 and too many states"),
        many.records(),
        19,
        7,
    );
    let out = join(0x14, &[&vec![constant(1001)], &vec![constant(1000)]]);
    let mut interval = bad();
    interval.start = join(0x23, &[&join(0x28, &[&out, &one()]), &interval.start]);
    // The conjunction, the comparison of five records, then the other comparison.
    list.refused(
        &name("divisor 0 behind an interval"),
        interval.records(),
        19,
        11,
    );
}

/// C3.5, C3.7, C10.8: intervals of quotients and remainders, moved to a bound and one past it.
fn divided_intervals(list: &mut List) {
    let start = |range: (i16, i16), number: &Code| {
        let mut draft = draft(INVARIANCE, 1);
        draft.ranges = vec![range];
        draft.start = join(0x27, &[number, number]);
        draft.records()
    };
    let variable = vec![record(0x11, 0, 0, 0, 0)];
    let by = |kind, divisor| join(kind, &[&variable, &vec![constant(divisor)]]);
    for (range, number, low, high) in [
        ((-7, 9), by(0x18, 2), -4, 4),
        ((-8, 7), by(0x18, 2), -4, 3),
        ((-1, 0), by(0x18, i16::MAX), -1, 0),
        ((-9, -7), by(0x18, 2), -5, -4),
        ((7, 9), by(0x18, 2), 3, 4),
        ((-5, 3), by(0x18, 1), -5, 3),
        ((-7, 9), by(0x19, 5), 0, 4),
        ((0, 1), by(0x19, 5), 0, 4),
        ((-3, -3), by(0x19, 5), 0, 4),
        ((0, 9), by(0x19, 1), 0, 0),
        ((0, 0), by(0x19, i16::MAX), 0, 32_766),
        (
            (-7, 9),
            join(0x18, &[&by(0x19, 7), &vec![constant(2)]]),
            0,
            3,
        ),
        (
            (-7, 9),
            join(0x19, &[&by(0x18, 7), &vec![constant(2)]]),
            0,
            1,
        ),
    ] {
        for (end, bound) in [(low, -1_000_000), (high, 1_000_000)] {
            // The end becomes 0 first, so that no other interval goes out.
            let moved = join(0x13, &[&number, &value(end)]);
            for past in [0, 1] {
                let more = value(past * bound / 1_000_000);
                let code = join(0x12, &[&join(0x12, &[&moved, &more]), &value(bound)]);
                let kind = number[0][0];
                let name = format!("kind {kind:x} over {range:?}, {bound} and {past}");
                match past {
                    0 => list.readable(&name, start(range, &code)),
                    _ => list.refused(&name, start(range, &code), 8, 3),
                }
            }
        }
    }
    // The left operand is judged, though what is made of it is small.
    let out = join(0x14, &[&vec![constant(1001)], &vec![constant(1000)]]);
    for kind in [0x18, 0x19] {
        let number = join(kind, &[&out, &vec![constant(2)]]);
        let name = format!("left operand out of bounds, kind {kind:x}");
        list.refused(&name, start((0, 1), &number), 8, 4);
    }
}

/// Variables in 0..3 and -2..2, two nodes, a transition, and everything true but the start.
fn started(property: u8, start: &Code) -> Draft {
    let mut draft = draft(property, 2);
    draft.ranges = vec![(0, 3), (-2, 2)];
    draft.start = start.clone();
    draft.transitions = vec![idle()];
    if property == CHAIN {
        draft.edges = double_edges(2);
    }
    draft
}

fn variable(number: u8) -> Code {
    vec![record(0x11, number, 0, 0, 0)]
}

fn never() -> Code {
    vec![plain(0x21)]
}

/// C6.3, C10.20: starts that no state satisfies, and that one state does.
fn starts(list: &mut List) {
    let (v, w) = (variable(0), variable(1));
    let less = |left: &Code, right: &Code| join(0x28, &[left, right]);
    let equal = |left: &Code, right: &Code| join(0x27, &[left, right]);
    let both = |left: &Code, right: &Code| join(0x23, &[left, right]);
    let here = |v_is, w_is| both(&equal(&v, &value(v_is)), &equal(&w, &value(w_is)));
    let twice = |number: &Code| join(0x14, &[&value(2), number]);
    let odd = join(0x12, &[&twice(&w), &value(1)]);
    for property in [INVARIANCE, WAIT_FOR, CHAIN] {
        let name = |text: &str| format!("{text}, property {property}");
        for (text, start) in [
            ("start false", never()),
            ("start past the last value", equal(&v, &value(4))),
            ("start before the first value", less(&w, &value(-2))),
            (
                "start of two that exclude each other",
                both(&less(&v, &w), &less(&w, &v)),
            ),
            ("start of a value and another", here(0, 3)),
            (
                "start of an odd number that is even",
                equal(&twice(&v), &odd),
            ),
            ("start of a remainder that is none", {
                let remainder = join(0x19, &[&twice(&w), &value(2)]);
                equal(&remainder, &value(1))
            }),
        ] {
            let records = started(property, &start).records();
            list.refused(&name(text), records, 20, 0);
        }
        for (text, start) in [
            ("start at the first state", here(0, -2)),
            ("start at the second state", here(0, -1)),
            ("start between", here(2, 0)),
            ("start at the last state but one", here(3, 1)),
            ("start at the last state", here(3, 2)),
        ] {
            list.readable(&name(text), started(property, &start).records());
        }
    }
}

/// C10.8: a product out of bounds in the last node, and its place.
fn with_interval(mut draft: Draft) -> (Draft, usize) {
    let out = join(0x14, &[&vec![constant(1001)], &vec![constant(1000)]]);
    draft.nodes[1] = join(0x28, &[&out, &value(0)]);
    // Behind the product stand three numbers, and the edge of a chain.
    let place = draft.records().len() - 4 - draft.edges.len();
    (draft, place)
}

/// C10.9: a double edge from node 0, and its place.
fn with_edge(mut draft: Draft) -> (Draft, usize) {
    draft.edges.push(Edge {
        transition: 0,
        from: 0,
        to: 1,
        double: true,
    });
    let place = draft.records().len() - 1;
    (draft, place)
}

/// C11.1: 20 with 7 to 10, and with conditions that are broken.
fn starts_and_others(list: &mut List) {
    for property in [INVARIANCE, WAIT_FOR, CHAIN] {
        let name = |text: &str| format!("start false and {text}, property {property}");
        let bad = || started(property, &never());
        let mut states = bad();
        states.ranges = vec![(0, 1023), (0, 1024)];
        list.refused(&name("too many states"), states.records(), 7, 1);
        let (interval, place) = with_interval(bad());
        list.refused(&name("an interval"), interval.records(), 8, place);
        let (edge, place) = with_edge(bad());
        list.refused(&name("an edge"), edge.records(), 9, place);
        let mut broken = bad();
        broken.truths.fill(never());
        list.refused(&name("a broken cover"), broken.records(), 20, 0);
        let mut broken = bad();
        broken.transitions[0].assignments = vec![(0, value(4))];
        list.refused(&name("a broken range"), broken.records(), 20, 0);
        let mut broken = bad();
        broken.nodes = vec![never(); 2];
        list.refused(&name("no node"), broken.records(), 20, 0);
    }
    let mut chain = started(CHAIN, &never());
    chain.edges.clear();
    list.refused("start false and no double edge", chain.records(), 10, 1);
}

/// Variables in 0..3 and -2..2 and a transition that sets them so. Its records: 0 and 1 variables,
/// 2 start, 3 true, 4 transition, 5 guard, then the assignments and picks.
fn setting(sets: &[Record]) -> Vec<Record> {
    let mut draft = draft(INVARIANCE, 1);
    draft.ranges = vec![(0, 3), (-2, 2)];
    draft.transitions = vec![idle()];
    let mut records = draft.records();
    records.splice(6..6, sets.iter().copied());
    records
}

fn pick(variable: u8, low: i16, high: i16) -> Record {
    record(0x08, variable, low, high, 0)
}

fn assignment(variable: u8) -> [Record; 2] {
    [record(0x04, variable, 0, 0, 0), constant(0)]
}

/// C1.4, C1.15, C1.16, C10.4.
fn picks(list: &mut List) {
    for (variable, low, high) in [(0, 0, 3), (0, 0, 0), (0, 3, 3), (1, -2, 2), (1, -2, -1)] {
        let name = format!("pick {low}..{high} of variable {variable}");
        list.readable(&name, setting(&[pick(variable, low, high)]));
    }
    for (variable, low, high) in [
        (0, -1, 3),
        (0, 0, 4),
        (0, -1, -1),
        (0, 4, 4),
        (0, -1, 4),
        (1, -3, 2),
        (1, -2, 3),
        (0, 1, 0),
        (0, 3, 0),
        (1, 2, -2),
        (1, 0, -1),
        (0, i16::MIN, i16::MAX),
        (0, i16::MAX, i16::MIN),
        (2, 0, 0),
        (255, 0, 0),
    ] {
        let name = format!("pick {low}..{high} of variable {variable}");
        list.refused(&name, setting(&[pick(variable, low, high)]), 4, 6);
    }
    for byte in [6, 7] {
        for value in [1, 128] {
            let mut bad = setting(&[pick(0, 0, 3)]);
            bad[6][byte] = value;
            list.refused(&format!("byte {byte} of a pick is {value}"), bad, 4, 6);
        }
    }
}

/// C1.8, C1.17, C10.6, C11.2.
fn picks_again(list: &mut List) {
    let (one, other) = ([pick(0, 0, 1)], [pick(1, 0, 2)]);
    let ([first, value], [second, _]) = (assignment(0), assignment(1));
    for (name, sets) in [
        ("two picks", [one, other].concat()),
        ("two picks, the later variable first", [other, one].concat()),
        ("a pick, then an assignment", vec![one[0], second, value]),
        ("an assignment, then a pick", vec![second, value, one[0]]),
    ] {
        list.readable(name, setting(&sets));
    }
    for (name, sets, place) in [
        ("picked again", vec![one[0], one[0]], 7),
        ("picked again, other values", vec![one[0], pick(0, 2, 3)], 7),
        ("assigned, then picked", vec![first, value, one[0]], 8),
        ("picked, then assigned", vec![one[0], first, value], 7),
        ("picked, then assigned nothing", vec![one[0], first], 7),
        (
            "picked again behind another pick",
            vec![one[0], other[0], one[0]],
            8,
        ),
        (
            "picked again behind an assignment",
            vec![one[0], second, value, one[0]],
            9,
        ),
        (
            "assigned, then picked, behind a pick",
            vec![first, value, other[0], one[0]],
            9,
        ),
        (
            "picked, then assigned, behind a pick",
            vec![one[0], other[0], first, value],
            8,
        ),
    ] {
        list.refused(name, setting(&sets), 6, place);
    }
    for (name, sets, place) in [
        ("picked again out of range", vec![one[0], pick(0, 0, 4)], 7),
        (
            "picked, then a field",
            vec![one[0], record(0x04, 0, 1, 0, 0)],
            7,
        ),
        (
            "assigned, then picked out of range",
            vec![first, value, pick(0, -1, 0)],
            8,
        ),
    ] {
        list.refused(name, setting(&sets), 4, place);
    }
    let two = [one[0], record(0x03, 0, 0, 0, 0), plain(0x20), one[0]];
    list.readable("picked in two transitions", setting(&two));
}

/// C1.5, C10.3: a pick before each record of a file, and behind the last.
fn picks_elsewhere(list: &mut List) {
    let mut draft = draft(WAIT_FOR, 2);
    draft.transitions = vec![idle()];
    draft.transitions[0].assignments = vec![(0, vec![constant(0)])];
    draft.edges = vec![Edge {
        transition: 0,
        from: 1,
        to: 0,
        double: false,
    }];
    let records = draft.records();
    // 3 is the transition, 4 its guard, 5 the assignment, 6 its value, 7 the property.
    for at in 0..=records.len() {
        let mut with = records.clone();
        with.insert(at, pick(0, 0, 1));
        let name = format!("a pick before record {at}");
        match at {
            5 => list.refused(&name, with, 6, 6),
            7 => list.refused(&name, with, 6, 7),
            _ => list.refused(&name, with, 3, at),
        }
    }
    let behind = [pick(0, 0, 1), constant(0)];
    list.refused("a number behind a pick", setting(&behind), 3, 7);
    let behind = [pick(0, 0, 1), plain(0x20)];
    list.refused("a truth behind a pick", setting(&behind), 3, 7);
}

/// A draft with ranges of so many values, an idle transition, and one that picks so many of the
/// highest of some variables; and how many records stand before that one.
fn picking(property: u8, sizes: &[i16], picks: &[(u8, i16)]) -> (Draft, usize) {
    let mut draft = draft(property, 2);
    draft.ranges = sizes.iter().map(|&size| (1 - size, 0)).collect();
    let mut transition = idle();
    transition.guard = never();
    transition.picks = picks
        .iter()
        .map(|&(variable, values)| Pick {
            variable,
            low: 1 - values,
            high: 0,
            behind: 0,
        })
        .collect();
    draft.transitions = vec![idle(), transition];
    if property == CHAIN {
        draft.edges = double_edges(2);
    }
    (draft, sizes.len() + 4)
}

/// C5.7, C10.22.
fn combinations(list: &mut List) {
    let twelve: Vec<(u8, i16)> = (0..12).map(|variable| (variable, 2)).collect();
    let mut last_of_3 = twelve.clone();
    last_of_3[11].1 = 3;
    let mut sizes_last_of_3 = [2; 12];
    sizes_last_of_3[11] = 3;
    for (sizes, picks, many) in [
        (&[4096][..], &[(0, 4096)][..], false),
        (&[4097], &[(0, 4096)], false),
        (&[4097], &[(0, 4097)], true),
        (&[32_767], &[(0, 32_767)], true),
        (&[64, 64], &[(0, 64), (1, 64)], false),
        (&[64, 65], &[(0, 64), (1, 64)], false),
        (&[64, 65], &[(1, 65), (0, 63)], false),
        (&[64, 65], &[(0, 64), (1, 65)], true),
        (&[65, 64], &[(1, 64), (0, 65)], true),
        (&[17, 241], &[(0, 17), (1, 240)], false),
        (&[17, 241], &[(0, 17), (1, 241)], true),
        (&[4096, 2], &[(0, 4096)], false),
        (&[4096, 2], &[(0, 4096), (1, 1)], false),
        (&[4096, 2], &[(1, 2), (0, 2048)], false),
        (&[4096, 2], &[(1, 2), (0, 2049)], true),
        (&[4096, 2], &[(0, 4096), (1, 2)], true),
        (&[16, 16, 16], &[(0, 16), (1, 16), (2, 16)], false),
        (&[16, 17, 16], &[(0, 16), (1, 16), (2, 16)], false),
        (&[16, 17, 16], &[(0, 16), (1, 17), (2, 16)], true),
        (&[16, 16, 17], &[(2, 17), (0, 16), (1, 16)], true),
        (&[2; 12], &twelve[..], false),
        (&sizes_last_of_3, &twelve, false),
        (&sizes_last_of_3, &last_of_3, true),
    ] {
        let (draft, place) = picking(INVARIANCE, sizes, picks);
        let name = format!("picks {picks:?} of {sizes:?} values");
        match many {
            true => list.refused(&name, draft.records(), 22, place),
            false => list.readable(&name, draft.records()),
        }
    }
    // Each transition has its own.
    let (mut draft, place) = picking(INVARIANCE, &[64, 65], &[(0, 64), (1, 64)]);
    let most = draft.transitions[1].clone();
    draft.transitions = vec![idle(), most.clone(), most.clone(), most];
    list.readable("4,096 combinations in three transitions", draft.records());
    for first in 1..4 {
        let mut draft = Draft {
            transitions: draft.transitions.clone(),
            ..picking(INVARIANCE, &[64, 65], &[]).0
        };
        for transition in &mut draft.transitions[first..] {
            transition.picks[1].low = -64;
        }
        let name = format!("4,160 combinations from transition {first} on");
        // A transition with two picks has four records.
        list.refused(&name, draft.records(), 22, place + 4 * (first - 1));
    }
}

/// C11.1: 22 with 7 before it, and with 8, 9, 10, 20 and broken conditions behind it.
fn combinations_and_others(list: &mut List) {
    for property in [INVARIANCE, WAIT_FOR, CHAIN] {
        for values in [64, 65] {
            let many = values == 65;
            let name = |text: &str| format!("{values} × 64 picks and {text}, property {property}");
            let new = || picking(property, &[65, 64], &[(1, 64), (0, values)]);
            let mut add = |text: &str, draft: Draft, other: Option<(u8, usize)>| {
                let refusal = if many { Some((22, 6)) } else { other };
                let refusal = refusal.map(|(number, place)| (number, place as u32));
                list.add(&name(text), draft.records().concat(), refusal);
            };
            let (interval, place) = with_interval(new().0);
            add("an interval", interval, Some((8, place)));
            let (edge, place) = with_edge(new().0);
            add("an edge", edge, Some((9, place)));
            let mut no_start = new().0;
            no_start.start = never();
            add("no start", no_start, Some((20, 0)));
            let mut no_node = new().0;
            no_node.nodes = vec![never(); 2];
            add("no node", no_node, None);
            if property == CHAIN {
                let mut no_double = new().0;
                no_double.edges.clear();
                add("no double edge", no_double, Some((10, 1)));
            }
        }
        let (draft, _) = picking(property, &[1024, 1025], &[(0, 1024), (1, 5)]);
        let name = format!("5,120 combinations and too many states, property {property}");
        list.refused(&name, draft.records(), 7, 1);
    }
}
