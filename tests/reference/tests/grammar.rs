//! The grammar of journal lines: 0, 10, 11, 12 and 13 for step lines, and the
//! opening line, of both forms.

use reference::generate;
use reference::journal::{check_line, opening, step, write_step, Form, Lines};
use reference::machine::{Sizes, Step};

#[test]
fn good_lines() {
    for line in [
        "op=load core=0 line=0",
        "op=evict core=4294967295 line=10",
        "op=store core=0 line=0 data=00ff9a",
        "op=fence core=0",
        "op=serve core=0",
        "op=receive core=0",
        "op=advance core=0 by=0",
        "op=yield line=0",
        "op=take line=63",
    ] {
        assert_eq!(check_line(line.as_bytes()), 0, "{line}");
    }
}

#[test]
fn each_form_has_its_own_steps() {
    let (core, line) = (15, 4_294_967_295);
    for (text, form, made) in [
        ("op=evict core=15 line=4294967295", Form::One, Step::Evict { core, line }),
        ("op=drop core=15 line=4294967295", Form::Two, Step::Drop { core, line }),
        ("op=writeback core=15 line=4294967295", Form::Two, Step::Writeback { core, line }),
        ("op=victim core=4294967295", Form::Two, Step::Victim { core: line }),
    ] {
        assert_eq!(step(form, text.as_bytes()), Ok(made));
        assert_eq!(step(form.other(), text.as_bytes()), Err(11), "{text}");
        // 11 comes before a wrong number.
        assert_eq!(step(form.other(), &text.as_bytes()[..text.len() - 10]), Err(11), "{text}");
    }
    for text in ["op=load core=0 line=0", "op=fence core=0", "op=advance core=0 by=1", "op=yield line=0"] {
        assert_eq!(step(Form::One, text.as_bytes()), step(Form::Two, text.as_bytes()));
        assert!(step(Form::Two, text.as_bytes()).is_ok(), "{text}");
    }
}

#[test]
fn drop_and_writeback_lines() {
    for kind in ["drop", "writeback"] {
        for (rest, number) in [
            ("", 11),
            (" ", 11),
            (" core=0", 11),
            (" line=0", 11),
            (" line=0 core=0", 11),
            (" core=0 line=0 ", 11),
            ("  core=0 line=0", 11),
            (" core=0 line=0 data=00", 11),
            ("s core=0 line=0", 11),
            (" core= line=0", 12),
            (" core=0 line=00", 12),
            (" core=4294967296 line=0", 12),
            (" core=0 line=0\r", 12),
        ] {
            let line = format!("op={kind}{rest}");
            assert_eq!(step(Form::Two, line.as_bytes()), Err(number), "{line:?}");
            // The host's check keeps to fabric=1.
            assert_eq!(check_line(line.as_bytes()), 11, "{line:?}");
        }
        assert_eq!(check_line(format!("op={kind} core=0 line=0").as_bytes()), 11);
    }
}

#[test]
fn victim_lines() {
    for (rest, number) in [
        ("", 11),
        (" ", 11),
        (" line=0", 11),
        (" core=0 line=0", 11),
        (" core=0 ", 11),
        ("  core=0", 11),
        (" core", 11),
        (" cores=0", 11),
        ("s core=0", 11),
        (" core=0 core=0", 11),
        (" core=", 12),
        (" core=00", 12),
        (" core=4294967296", 12),
        (" core=0\r", 12),
    ] {
        let line = format!("op=victim{rest}");
        assert_eq!(step(Form::Two, line.as_bytes()), Err(number), "{line:?}");
        assert_eq!(check_line(line.as_bytes()), 11, "{line:?}");
    }
    // The host's check keeps to fabric=1.
    assert_eq!(check_line(b"op=victim core=0"), 11);
}

#[test]
fn no_forms() {
    for line in [
        "",
        " ",
        "op",
        "op=",
        "op=load",
        "op=load core=0",
        "op=load line=0 core=0",
        "op=load core=0 line=0 ",
        " op=load core=0 line=0",
        "op=load  core=0 line=0",
        "op=load core=0 line=0 x",
        "op=loadcore=0 line=0",
        "op=LOAD core=0 line=0",
        "op=fence core=0 line=0",
        "op=take core=0",
        "op=load core=0\tline=0",
        "op=store core=0 line=0 data=00 ",
        "op=store core=0 line=0",
        "op=store core=x line=0 data=0 0",
        "fabric=1 cores=1 lines=1 width=1 lease=1",
        "op=show core=0 line=0",
    ] {
        assert_eq!(check_line(line.as_bytes()), 11, "{line:?}");
    }
}

#[test]
fn wrong_numbers() {
    for value in [
        "",
        "x",
        "00",
        "01",
        "4294967296",
        "42949672950",
        "99999999999999999999",
        "+1",
        "-1",
        "1\r",
        "1=",
        "0x1",
    ] {
        for line in [
            format!("op=load core={value} line=0"),
            format!("op=load core=0 line={value}"),
            format!("op=advance core=0 by={value}"),
            format!("op=take line={value}"),
            // 12 comes before 13.
            format!("op=store core=0 line={value} data=X"),
        ] {
            assert_eq!(check_line(line.as_bytes()), 12, "{line:?}");
        }
    }
}

#[test]
fn wrong_data() {
    for value in ["", "0", "000", "0A", "0g", "AB", "0x00", "0/", "0:", "0`", "00\r"] {
        let line = format!("op=store core=0 line=0 data={value}");
        assert_eq!(check_line(line.as_bytes()), 13, "{line:?}");
    }
}

#[test]
fn line_lengths() {
    let store = |core: u32, count: usize| format!("op=store core={core} line=0 data={}", "ab".repeat(count));
    assert_eq!((store(0, 86).len(), check_line(store(0, 86).as_bytes())), (200, 0));
    assert_eq!((store(10, 85).len(), check_line(store(10, 85).as_bytes())), (199, 0));
    assert_eq!((store(10, 86).len(), check_line(store(10, 86).as_bytes())), (201, 10));
    assert_eq!(check_line(&[b' '; 200]), 11);
    assert_eq!(check_line(&[b' '; 201]), 10);
    assert_eq!(check_line(&[b'0'; 100_000]), 10);
}

#[test]
fn lines_of_a_journal() {
    let lines = |text: &'static [u8]| Lines::new(text).collect::<Vec<_>>();
    assert_eq!(lines(b""), []);
    assert_eq!(lines(b"\n"), [Ok(&b""[..])]);
    assert_eq!(lines(b"a\n\nb\n"), [Ok(&b"a"[..]), Ok(&b""[..]), Ok(&b"b"[..])]);
    assert_eq!(lines(b"a\nb"), [Ok(&b"a"[..]), Err(10)]);
}

#[test]
fn openings() {
    let sizes = Sizes { cores: 0, lines: 99, width: 4_294_967_295, lease: 7, cap: 99 };
    assert_eq!(opening(b"fabric=1 cores=0 lines=99 width=4294967295 lease=7"), Ok((Form::One, sizes)));
    for (text, cap) in [("0", 0), ("1", 1), ("99", 99), ("100", 100), ("4294967295", 4_294_967_295)] {
        let line = format!("fabric=2 cores=0 lines=99 width=4294967295 lease=7 cap={text}");
        assert_eq!(opening(line.as_bytes()), Ok((Form::Two, Sizes { cap, ..sizes })));
    }
    for (line, number) in [
        ("fabric=0 cores=1 lines=1 width=1 lease=1", 11),
        ("fabric=6 cores=1 lines=1 width=1 lease=1", 11),
        ("fabric=6 cores=1 lines=1 width=1 lease=1 cap=1", 11),
        ("fabric=02 cores=1 lines=1 width=1 lease=1 cap=1", 11),
        ("fabric=21 cores=1 lines=1 width=1 lease=1 cap=1", 11),
        ("fabric=2 cores=1 lines=1 width=1 cap=1", 11),
        ("fabric=2 lines=1 cores=1 width=1 lease=1 cap=1", 11),
        ("fabric=2 cores=1 lines=1 width=1 lease=01 cap=1", 12),
        ("fabric=10 cores=1 lines=1 width=1 lease=1", 11),
        ("fabric=1 cores=1 lines=1 width=1", 11),
        ("fabric=1 cores=1 lines=1 width=1 lease=1 ", 11),
        ("fabric=1 cores=1 width=1 lines=1 lease=1", 11),
        ("fabric=1 cores=1 lines=1 width=01 lease=1", 12),
        ("fabric=1 cores=1 lines=1 width=1 lease=", 12),
    ] {
        assert_eq!(opening(line.as_bytes()), Err(number), "{line}");
    }
}

/// The second form needs its cap, once, after the lease; the first has none.
#[test]
fn caps_of_openings() {
    let sizes = "cores=1 lines=1 width=1 lease=1";
    for (line, number) in [
        (format!("fabric=2 {sizes}"), 11),
        (format!("fabric=2 {sizes} "), 11),
        (format!("fabric=2 {sizes} cap"), 11),
        (format!("fabric=2 {sizes} cap 1"), 11),
        (format!("fabric=2 {sizes} caps=1"), 11),
        (format!("fabric=2 {sizes} Cap=1"), 11),
        (format!("fabric=2 {sizes}  cap=1"), 11),
        (format!("fabric=2 {sizes} cap=1 "), 11),
        (format!("fabric=2 {sizes} cap=1 cap=1"), 11),
        (format!("fabric=2 {sizes} cap=1 x=1"), 11),
        (format!("fabric=2 cap=1 {sizes}"), 11),
        ("fabric=2 cores=1 lines=1 width=1 cap=1 lease=1".to_string(), 11),
        (format!("fabric=1 {sizes} cap=1"), 11),
        // 11 comes before a wrong number.
        ("fabric=2 cores=x lines=1 width=1 lease=1".to_string(), 11),
        (format!("fabric=1 {sizes} cap="), 11),
        (format!("fabric=2 {sizes} cap="), 12),
        (format!("fabric=2 {sizes} cap=01"), 12),
        (format!("fabric=2 {sizes} cap=x"), 12),
        (format!("fabric=2 {sizes} cap=-1"), 12),
        (format!("fabric=2 {sizes} cap=1\r"), 12),
        (format!("fabric=2 {sizes} cap=4294967296"), 12),
        (format!("fabric=2 {sizes} cap=4294967297"), 12),
        (format!("fabric=2 {sizes} cap=18446744073709551617"), 12),
    ] {
        assert_eq!(opening(line.as_bytes()), Err(number), "{line:?}");
    }
}

/// Every step line of generated journals is the text of the step it reads as.
#[test]
fn text_and_reader_agree() {
    for seed in 1..300 {
        let text = generate::journal(seed);
        for line in Lines::new(&text).skip(1).flatten() {
            for step in Form::ALL.into_iter().filter_map(|form| step(form, line).ok()) {
                let mut again = Vec::new();
                write_step(&mut again, &step);
                assert_eq!(again, line);
            }
        }
    }
}
