//! Journals between the two forms (02, "Journals between the two forms"): each check
//! and each order of two, what becomes of every line, the buffer's end, and that both
//! journals mean the same.

use reference::convert::convert;
use reference::generate::{fill_up, journal_to_convert};
use reference::journal::{Form, MAX_JOURNAL};
use reference::machine::{Answer, Step};
use reference::meaning;
use reference::run::Run;

const ONE: &str = "fabric=1 cores=2 lines=2 width=1 lease=10\n";
const TWO: &str = "fabric=2 cores=2 lines=2 width=1 lease=10 cap=2\n";

/// Lines after which core 0 holds a shared, or an owned copy of line 0.
const SHARED: &str = "op=load core=0 line=0\nop=serve core=0\nop=receive core=0\n";
const OWNED: &str = "op=store core=0 line=0 data=01\nop=serve core=0\nop=receive core=0\n";

/// Lines that are malformed in both forms, with their numbers, newline included.
fn malformed() -> Vec<(String, u32)> {
    let long = |bytes: usize| format!("op=store core=0 line=0 data={}\n", "0".repeat(bytes - 28));
    [
        (long(201), 10),
        (long(300), 10),
        ("\n".into(), 11),
        (" \n".into(), 11),
        ("op=fence core=0 \n".into(), 11),
        ("op=wait core=0\n".into(), 11),
        ("fabric=1 cores=2 lines=2 width=1 lease=10\n".into(), 11),
        ("fabric=2 cores=2 lines=2 width=1 lease=10 cap=2\n".into(), 11),
        ("op=fence core=\n".into(), 12),
        ("op=fence core=00\n".into(), 12),
        ("op=fence core=4294967296\n".into(), 12),
        ("op=store core=0 line=x data=0\n".into(), 12),
        ("op=store core=0 line=0 data=\n".into(), 13),
        ("op=store core=0 line=0 data=0\n".into(), 13),
        ("op=store core=0 line=0 data=AB\n".into(), 13),
    ]
    .into()
}

fn start(form: Form) -> &'static str {
    match form {
        Form::One => ONE,
        Form::Two => TWO,
    }
}

/// What a journal becomes, or its number, with all the room there may be.
fn converted(to: Form, journal: &str) -> Result<String, u32> {
    convert(to, journal.as_bytes(), MAX_JOURNAL).map(|text| String::from_utf8(text).unwrap())
}

/// A journal of exactly so many bytes.
fn filled(start: &str, bytes: usize) -> String {
    let mut text = start.as_bytes().to_vec();
    fill_up(&mut text, bytes);
    assert_eq!(text.len(), bytes);
    String::from_utf8(text).unwrap()
}

/// The journals of many seeds of a form.
fn generated(form: Form) -> impl Iterator<Item = Vec<u8>> {
    (100_000..101_500).map(move |seed| journal_to_convert(seed, form))
}

// ---- The checks ----

#[test]
fn the_input_is_at_most_65536_bytes() {
    for to in Form::ALL {
        let evict =
            ["op=evict core=0 line=0\n", "op=writeback core=0 line=0\n"][usize::from(to == Form::One)];
        // Results that are shorter than the input.
        let shrinking = start(to.other()).to_string() + &evict.repeat(30);
        assert!(converted(to, &filled(&shrinking, 65_536)).is_ok());
        for bytes in [65_537, 65_538, 200_000] {
            assert_eq!(converted(to, &filled(&shrinking, bytes)), Err(14), "{bytes}");
        }
    }
}

#[test]
fn an_input_too_long_comes_before_every_other_number() {
    for to in Form::ALL {
        let good = start(to.other());
        for opening in ["x\n", "", &good.replace("cores=2", "cores=0"), &good.replace("cores=2", "cores=")] {
            assert_eq!(converted(to, &filled(opening, 65_537)), Err(14));
        }
        assert_eq!(converted(to, &"x".repeat(65_537)), Err(14));
        assert_eq!(converted(to, &"x".repeat(65_536)), Err(10));
    }
    for unfit in [&TWO.replace("cap=2", "cap=1"), &format!("{TWO}op=victim core=0\n")] {
        assert_eq!(converted(Form::One, &filled(unfit, 65_537)), Err(14));
        assert_eq!(converted(Form::One, &filled(unfit, 65_536)), Err(32));
    }
}

/// Every malformed line at every place, before a good line and at the end, with sizes
/// inside and outside the limits, after a victim and beside another cap.
#[test]
fn the_first_malformed_line_comes_before_7_and_32() {
    for to in Form::ALL {
        let good = start(to.other());
        let mut openings = vec![good.to_string(), good.replace("cores=2", "cores=17")];
        if to == Form::One {
            openings.push(good.replace("cap=2", "cap=1"));
            openings.push(good.replace("cap=2", "cap=0"));
        }
        for opening in &openings {
            for (bad, number) in malformed() {
                let before = if to == Form::One { "op=victim core=0\n" } else { "op=fence core=0\n" };
                for journal in [
                    format!("{opening}{bad}"),
                    format!("{opening}{bad}{before}"),
                    format!("{opening}{before}{bad}"),
                    format!("{opening}{before}{bad}op=fence core=0\n"),
                ] {
                    assert_eq!(converted(to, &journal), Err(number), "{journal}");
                }
                // Further malformed lines are no matter.
                for (other, _) in malformed() {
                    let journal = format!("{opening}{before}{bad}{other}op=fence core=0");
                    assert_eq!(converted(to, &journal), Err(number), "{journal}");
                }
            }
            for cut in ["op=fence core=0", "op=fence core=00", "x", &"0".repeat(300)] {
                assert_eq!(converted(to, &format!("{opening}op=fence core=0\n{cut}")), Err(10), "{cut}");
            }
        }
    }
}

#[test]
fn a_malformed_first_line() {
    for (to, first, number) in [
        (Form::One, "", 11),
        (Form::Two, "", 11),
        (Form::One, "\n", 11),
        (Form::Two, "\n", 11),
        (Form::One, ONE, 11),
        (Form::Two, TWO, 11),
        (Form::One, "fabric=1 cores=x lines=1 width=1 lease=1\n", 11),
        (Form::Two, "fabric=2 cores=x lines=1 width=1 lease=1 cap=1\n", 11),
        (Form::One, "fabric=2 cores=1 lines=1 width=1 lease=1\n", 11),
        (Form::Two, "fabric=1 cores=1 lines=1 width=1 lease=1 cap=1\n", 11),
        (Form::One, "fabric=6 cores=1 lines=1 width=1 lease=1 cap=1\n", 11),
        (Form::Two, "fabric=11 cores=1 lines=1 width=1 lease=1\n", 11),
        (Form::One, "fabric=2 cores=1 lines=1 width=1 lease=1 cap=\n", 12),
        (Form::One, "fabric=2 cores=17 lines=1 width=1 lease=1 cap=01\n", 12),
        (Form::Two, "fabric=1 cores=17 lines=1 width=1 lease=01\n", 12),
        (Form::One, "fabric=2 cores=1 lines=1 width=1 lease=1 cap=1", 10),
        (Form::Two, "fabric=1 cores=1 lines=1 width=1 lease=1", 10),
    ] {
        assert_eq!(converted(to, first), Err(number), "{first}");
        // It is the first, whatever comes behind it.
        if first.ends_with('\n') {
            for behind in ["op=fence core=0\n", "op=fence core=00\n", "op=fence core=0"] {
                assert_eq!(converted(to, &format!("{first}{behind}")), Err(number), "{first}{behind}");
            }
        }
    }
    let long = format!("fabric=1{}\n", " ".repeat(193));
    assert_eq!((converted(Form::One, &long), converted(Form::Two, &long)), (Err(10), Err(10)));
}

#[test]
fn a_step_of_the_other_form_is_malformed() {
    for (to, kinds) in [
        (Form::Two, &["op=drop core=0 line=0", "op=writeback core=0 line=0", "op=victim core=0"][..]),
        (Form::One, &["op=evict core=0 line=0"]),
    ] {
        for kind in kinds {
            for (before, behind) in [("", ""), ("op=fence core=0\n", ""), ("", "op=fence core=0\n")] {
                let journal = format!("{}{before}{kind}\n{behind}", start(to.other()));
                assert_eq!(converted(to, &journal), Err(11), "{journal}");
            }
        }
    }
}

#[test]
fn sizes_outside_the_limits() {
    for to in Form::ALL {
        let good = start(to.other());
        for (inside, outside) in [
            ("cores=2", &["cores=0", "cores=17", "cores=4294967295"][..]),
            ("lines=2", &["lines=0", "lines=65", "lines=4294967295"]),
            ("width=1", &["width=0", "width=65"]),
            ("lease=10", &["lease=0", "lease=1001"]),
        ] {
            for size in outside {
                let opening = good.replace(inside, size);
                assert_eq!(converted(to, &opening), Err(7), "{opening}");
                // Before 32, and before the result's 14.
                let more = if to == Form::One { "op=victim core=0\n" } else { "" };
                assert_eq!(converted(to, &format!("{opening}{more}")), Err(7));
                let drops =
                    if to == Form::One { "op=drop core=0 line=0\n".repeat(30) } else { String::new() };
                assert_eq!(converted(to, &filled(&format!("{opening}{more}{drops}"), 65_536)), Err(7));
                assert_eq!(convert(to, opening.as_bytes(), 0), Err(7));
            }
        }
    }
    // A cap outside its limits is 7, one inside that is not lines is 32.
    for cap in [0, 1, 2, 3, 64, 4_294_967_295u32] {
        let opening = TWO.replace("cap=2", &format!("cap={cap}"));
        let expected = match cap {
            2 => Ok(ONE.to_string()),
            1 => Err(32),
            _ => Err(7),
        };
        assert_eq!(converted(Form::One, &opening), expected, "{cap}");
    }
}

#[test]
fn number_32() {
    let unfit = [
        TWO.replace("cap=2", "cap=1"),
        format!("{TWO}op=victim core=0\n"),
        format!("{TWO}op=victim core=2\n"),
        format!("{TWO}{SHARED}op=victim core=0\n"),
        format!("{TWO}{OWNED}op=drop core=0 line=0\n"),
        format!("{TWO}{SHARED}op=writeback core=0 line=0\n"),
        format!("{TWO}{OWNED}op=drop core=0 line=0\nop=writeback core=0 line=0\nop=take line=0\n"),
    ];
    for journal in &unfit {
        assert_eq!(converted(Form::One, journal), Err(32), "{journal}");
        assert_eq!(converted(Form::One, &format!("{journal}op=fence core=0\n")), Err(32), "{journal}");
        // Before the result's 14, for its own length and for the buffer's.
        let long = format!("{journal}{}", "op=drop core=1 line=1\n".repeat(60));
        assert_eq!(converted(Form::One, &filled(&long, 65_536)), Err(32));
        for room in [0, 1, 50] {
            assert_eq!(convert(Form::One, journal.as_bytes(), room), Err(32), "{journal}");
        }
    }
}

/// Every other number than 30 leaves a journal convertible.
#[test]
fn number_32_and_not_outside_its_condition() {
    for steps in [
        "op=drop core=0 line=0\n",
        "op=writeback core=0 line=0\n",
        "op=drop core=2 line=0\n",
        "op=writeback core=0 line=2\n",
        "op=writeback core=4294967295 line=4294967295\n",
        "op=load core=2 line=0\nop=take line=2\nop=store core=0 line=0 data=0000\nop=advance core=0 by=0\n",
        "op=serve core=0\nop=receive core=0\nop=yield line=0\nop=take line=0\n",
        "op=load core=0 line=0\nop=load core=0 line=1\n",
        "op=advance core=0 by=4294967295\nop=advance core=0 by=1\n",
        &format!("{SHARED}op=drop core=0 line=0\nop=drop core=0 line=0\n"),
        &format!("{OWNED}op=writeback core=0 line=0\nop=drop core=0 line=0\nop=take line=0\n"),
    ] {
        let expected = steps.replace("op=drop", "op=evict").replace("op=writeback", "op=evict");
        assert_eq!(converted(Form::One, &format!("{TWO}{steps}")), Ok(format!("{ONE}{expected}")));
    }
}

// ---- What becomes of an evict ----

#[test]
fn evict_becomes_what_fits_the_copy() {
    let (evict, drop, writeback) =
        ("op=evict core=0 line=0\n", "op=drop core=0 line=0\n", "op=writeback core=0 line=0\n");
    let owned_by_1 = OWNED.replace("core=0", "core=1");
    let asked_by_1 = "op=load core=1 line=0\nop=serve core=1\n";
    for (before, becomes) in [
        (String::new(), drop),
        (SHARED.to_string(), drop),
        (OWNED.to_string(), writeback),
        (format!("{OWNED}op=store core=0 line=0 data=01\n"), writeback),
        (format!("{SHARED}{OWNED}"), writeback),
        // Not received yet.
        ("op=store core=0 line=0 data=01\nop=serve core=0\n".to_string(), drop),
        (format!("{SHARED}op=store core=0 line=0 data=01\nop=serve core=0\n"), drop),
        // Another core's, or another line's.
        (owned_by_1.clone(), drop),
        (format!("{SHARED}{owned_by_1}"), drop),
        (OWNED.replace("line=0", "line=1"), drop),
        (format!("{SHARED}{}", OWNED.replace("line=0", "line=1")), drop),
        // Recalled, yielded, taken.
        (format!("{OWNED}{asked_by_1}"), writeback),
        (format!("{OWNED}{asked_by_1}op=yield line=0\n"), drop),
        (format!("{OWNED}{asked_by_1}op=yield line=0\nop=take line=0\n"), drop),
        (format!("{OWNED}op=store core=1 line=0 data=01\nop=serve core=1\nop=yield line=0\n"), drop),
    ] {
        let (journal, result) = (format!("{ONE}{before}{evict}"), format!("{TWO}{before}{becomes}"));
        assert_eq!(converted(Form::Two, &journal), Ok(result.clone()));
        // A second one finds nothing, also where the line comes to be owned behind it.
        let (journal, result) = (journal + evict + OWNED, result + drop + OWNED);
        assert_eq!(converted(Form::Two, &journal), Ok(result));
    }
}

#[test]
fn evict_out_of_range_becomes_drop() {
    // Core 0 owns every line, so that any copy of it that is found is owned.
    let owned = |core: u32, line: u32| {
        format!("op=store core={core} line={line} data=01\nop=serve core={core}\nop=receive core={core}\n")
    };
    let all = [owned(0, 0), owned(0, 1)].concat();
    for (core, line, becomes) in [
        (0u32, 0u32, "writeback"),
        (0, 1, "writeback"),
        (1, 0, "drop"),
        (2, 0, "drop"),
        (2, 1, "drop"),
        (0, 2, "drop"),
        (0, 64, "drop"),
        (0, 128, "drop"),
        (16, 0, "drop"),
        (256, 0, "drop"),
        (65_536, 1, "drop"),
        (4_294_967_294, 0, "drop"),
        (4_294_967_295, 4_294_967_295, "drop"),
        (0, 4_294_967_294, "drop"),
        (2_147_483_648, 2_147_483_648, "drop"),
    ] {
        let journal = format!("{ONE}{all}op=evict core={core} line={line}\n");
        let result = format!("{TWO}{all}op={becomes} core={core} line={line}\n");
        assert_eq!(converted(Form::Two, &journal), Ok(result));
    }
}

#[test]
fn the_first_lines() {
    for (cores, lines, width, lease) in [(1, 1, 1, 1), (16, 64, 64, 1000), (3, 10, 9, 99), (2, 9, 10, 100)] {
        let one = format!("fabric=1 cores={cores} lines={lines} width={width} lease={lease}\n");
        let two = format!("fabric=2 cores={cores} lines={lines} width={width} lease={lease} cap={lines}\n");
        assert_eq!(converted(Form::Two, &one), Ok(two.clone()));
        assert_eq!(converted(Form::One, &two), Ok(one));
    }
}

// ---- The result's length ----

/// A result of exactly the buffer's length is given, one byte more is 14, whatever the
/// buffer holds above 65,536 bytes.
#[test]
fn a_buffer_that_just_fits() {
    let of_1 = format!("{ONE}{OWNED}op=evict core=0 line=0\nop=evict core=0 line=0\n");
    let of_2 = format!("{TWO}{OWNED}op=writeback core=0 line=0\nop=drop core=0 line=0\n");
    for (to, journal, result) in
        [(Form::Two, &of_1, &of_2), (Form::One, &of_2, &of_1), (Form::One, &TWO.into(), &ONE.into())]
    {
        for room in 0..result.len() {
            assert_eq!(convert(to, journal.as_bytes(), room), Err(14), "{room}");
        }
        for room in [result.len(), result.len() + 1, 65_536, 65_537, usize::MAX] {
            assert_eq!(convert(to, journal.as_bytes(), room), Ok(result.clone().into_bytes()), "{room}");
        }
    }
}

/// By how much each kind of line grows: the first by its cap, a drop by -1, a
/// writeback by 4, and the other way round.
#[test]
fn a_result_of_65536_bytes_and_of_one_more() {
    let cycle = format!("{OWNED}op=evict core=0 line=0\nop=take line=0\n");
    let evict = "op=evict core=0 line=0\n";
    let drop = "op=drop core=0 line=0\n";
    for (to, steps, growth) in [
        (Form::Two, String::new(), 6),
        (Form::Two, evict.repeat(5), 1),
        (Form::Two, evict.repeat(6), 0),
        (Form::Two, cycle.repeat(10), 46),
        (Form::Two, cycle.repeat(10) + &evict.repeat(40), 6),
        (Form::One, drop.repeat(6), 0),
        (Form::One, drop.repeat(7), 1),
        (Form::One, drop.repeat(106), 100),
    ] {
        let start = start(to.other()).to_string() + &steps;
        let fits = convert(to, filled(&start, 65_536 - growth).as_bytes(), usize::MAX);
        assert_eq!(fits.map(|text| text.len()), Ok(65_536));
        if growth > 0 {
            let over = filled(&start, 65_537 - growth);
            for room in [65_536, 65_537, usize::MAX] {
                assert_eq!(convert(to, over.as_bytes(), room), Err(14));
            }
            // A late malformed line comes first.
            let late = format!("{}op=fence core=00\n", filled(&start, 65_519));
            assert_eq!(converted(to, &late), Err(12));
        }
    }
}

// ---- Generated journals ----

/// To the first form, a journal is its own text with other words.
#[test]
fn to_1_only_words_change() {
    let mut count = 0;
    for journal in generated(Form::Two) {
        let Ok(result) = convert(Form::One, &journal, MAX_JOURNAL) else {
            continue;
        };
        let text = String::from_utf8(journal).unwrap();
        let (first, steps) = text.split_once('\n').unwrap();
        let (first, _) = first.split_once(" cap=").unwrap();
        let first = first.replace("fabric=2", "fabric=1");
        let steps = steps.replace("op=drop", "op=evict").replace("op=writeback", "op=evict");
        assert_eq!(String::from_utf8(result).unwrap(), format!("{first}\n{steps}"));
        count += 1;
    }
    assert!(count > 500, "{count}");
}

/// To the second form, an evict is a writeback exactly if it puts one in flight.
#[test]
fn to_2_an_evict_that_writes_back_is_a_writeback() {
    let (mut drops, mut writebacks) = (0, 0);
    for journal in generated(Form::One) {
        let Ok(result) = convert(Form::Two, &journal, MAX_JOURNAL) else {
            continue;
        };
        let (text, result) = (String::from_utf8(journal).unwrap(), String::from_utf8(result).unwrap());
        let mut run = Run::new(text.as_bytes());
        let mut in_flight = Vec::new();
        for (line, becomes) in text.lines().zip(result.lines()) {
            let record = run.next().unwrap();
            let after: Vec<bool> =
                run.machine().unwrap().state.lines.iter().map(|line| line.writeback.is_some()).collect();
            match record.step {
                None => {
                    let first = line.replace("fabric=1", "fabric=2");
                    let lines = run.machine().unwrap().state.sizes.lines;
                    assert_eq!(becomes, format!("{first} cap={lines}"));
                }
                Some(Step::Evict { .. }) if record.answer == Answer::Evict && in_flight != after => {
                    assert_eq!(becomes, line.replace("op=evict", "op=writeback"));
                    writebacks += 1;
                }
                Some(Step::Evict { .. }) => {
                    assert_eq!(becomes, line.replace("op=evict", "op=drop"));
                    drops += 1;
                }
                Some(_) => assert_eq!(becomes, line),
            }
            in_flight = after;
        }
        assert_eq!(text.lines().count(), result.lines().count());
    }
    assert!(drops > 1000 && writebacks > 1000, "{drops} drops, {writebacks} writebacks");
}

#[test]
fn there_and_back() {
    let mut counts = [0; 2];
    for (to, count) in Form::ALL.into_iter().zip(&mut counts) {
        for journal in generated(to.other()) {
            let Ok(result) = convert(to, &journal, MAX_JOURNAL) else {
                continue;
            };
            let back = convert(to.other(), &result, MAX_JOURNAL).unwrap();
            if to == Form::Two {
                assert_eq!(back, journal);
            }
            // Once more, the same again.
            assert_eq!(convert(to, &back, MAX_JOURNAL).unwrap(), result);
            for other in [&result, &back] {
                assert_eq!(meaning::difference(&journal, other), None);
            }
            *count += 1;
        }
    }
    assert!(counts.iter().all(|count| *count > 500), "{counts:?}");
}

/// The same with the commits and refusals taken out of the listings, as whoever reads
/// listings compares them.
#[test]
fn the_same_commits_and_refusals_at_each_place() {
    let lines = |journal: &[u8]| -> Vec<String> {
        let listing = String::from_utf8(reference::listing::listing(journal)).unwrap();
        let told = |line: &&str| line.contains(" commit=") || line.contains("refused=");
        listing.lines().filter(told).map(String::from).collect()
    };
    for to in Form::ALL {
        let mut told = 0;
        for journal in generated(to.other()).take(500) {
            if let Ok(result) = convert(to, &journal, MAX_JOURNAL) {
                let both = (lines(&journal), lines(&result));
                assert_eq!(both.0, both.1);
                let listing = reference::listing::listing;
                assert_eq!(meaning::listing_difference(&listing(&journal), &listing(&result)), None);
                told += both.0.len();
            }
        }
        assert!(told > 5000, "{told}");
    }
}

/// A refusal says nothing of the buffer, and is the same with any room, but for the
/// result's 14.
#[test]
fn the_room_decides_on_14_alone() {
    for to in Form::ALL {
        for journal in generated(to.other()).take(500) {
            let outcome = convert(to, &journal, MAX_JOURNAL);
            match &outcome {
                Ok(result) => {
                    assert_eq!(convert(to, &journal, result.len() - 1), Err(14));
                    assert_eq!(convert(to, &journal, result.len()), outcome);
                }
                Err(_) => assert_eq!(convert(to, &journal, 0), outcome),
            }
        }
    }
}

// ---- The comparison itself ----

#[test]
fn another_meaning_is_seen() {
    let two =
        format!("{TWO}{OWNED}op=store core=0 line=0 data=01\nop=writeback core=0 line=0\nop=take line=0\n");
    let one = converted(Form::One, &two).unwrap();
    let differs = |one: &str, two: &str| meaning::difference(one.as_bytes(), two.as_bytes()).is_some();
    assert!(!differs(&one, &two) && !differs(&two, &one) && !differs(&one, &one));
    for (old, new) in [
        ("op=writeback core=0 line=0", "op=drop core=0 line=0"),
        ("op=writeback core=0 line=0", "op=writeback core=1 line=0"),
        ("op=writeback core=0 line=0", "op=writeback core=0 line=1"),
        ("op=writeback core=0 line=0\n", ""),
        ("data=01\nop=writeback", "data=02\nop=writeback"),
        ("op=take line=0\n", "op=take line=0\nop=fence core=0\n"),
        ("op=take line=0\n", "op=take line=1\n"),
        ("op=take line=0\n", "op=advance core=1 by=1\n"),
        ("cores=2", "cores=3"),
        ("lease=10", "lease=11"),
        ("cap=2", "cap=1"),
        ("op=take line=0\n", "op=take line=0"),
    ] {
        let other = two.replace(old, new);
        assert!(differs(&one, &other) && differs(&other, &one), "{other}");
    }
    // Two runs that end at the same bad line do not mean the same: none of them ends.
    assert!(differs(&format!("{one}x\n"), &format!("{two}x\n")));
    let listings =
        |one: &str, two: &str| meaning::listing_difference(one.as_bytes(), two.as_bytes()).is_some();
    assert!(!listings("n=1 done=evict\nend=1\n", "n=1 done=drop\nend=1\n"));
    assert!(!listings("n=1 done=writeback\nend=1\n", "n=1 done=evict\nend=1\n"));
    for (one, two) in [
        ("n=1 done=drop\n", "n=1 done=writeback\n"),
        ("n=1 done=evict\n", "n=2 done=drop\n"),
        ("n=1 done=evict\n", "n=1 refused=26\n"),
        ("n=1 done=evict\n", "n=1 done=take\n"),
        ("n=1 done=evict\n", "n=1 done=drop\nend=1\n"),
        ("n=1 commit=fence core=0 ts=0\n", "n=1 commit=fence core=0 ts=1\n"),
    ] {
        assert!(listings(one, two) && listings(two, one), "{one}{two}");
    }
}
