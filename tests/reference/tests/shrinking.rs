//! The search for a small journal.

use reference::shrink::shrink;

fn small(journal: &str, needed: &[&str]) -> String {
    let differs = |text: &[u8]| {
        let text = String::from_utf8_lossy(text);
        needed.iter().all(|line| text.contains(line))
    };
    String::from_utf8(shrink(journal.as_bytes(), 4000, differs)).unwrap()
}

#[test]
fn lines_that_do_not_matter_go() {
    let mut journal = String::from("fabric=1 cores=1 lines=1 width=1 lease=1\n");
    for line in 0..500 {
        journal.push_str(&format!("op=take line={line}\n"));
    }
    assert_eq!(
        small(&journal, &["op=take line=77\n", "op=take line=401\n"]),
        "op=take line=77\nop=take line=401\n"
    );
}

#[test]
fn names_and_data_get_small() {
    let journal = "fabric=1 cores=9 lines=9 width=3 lease=9\nop=store core=7 line=8 data=0a0b0c\n";
    let small = shrink(journal.as_bytes(), 4000, |text| {
        reference::listing::listing(text).ends_with(b"end=1 commits=0 refused=0\n")
    });
    let small = String::from_utf8(small).unwrap();
    assert!(small.len() < journal.len() && small.contains("core=0"), "{small}");
}

#[test]
fn lines_and_the_capacity_get_small_together() {
    let journal = "fabric=2 cores=9 lines=9 width=9 lease=9 cap=9\nop=victim core=7\n";
    let small = shrink(journal.as_bytes(), 4000, |text| {
        let opening = text.split(|&byte| byte == b'\n').next().unwrap();
        reference::journal::opening(opening).is_ok_and(|(_, sizes)| sizes.cap == sizes.lines)
            && reference::listing::listing(text).starts_with(b"n=0 done=open\nn=1 refused=26\n")
    });
    let expected = "fabric=2 cores=1 lines=1 width=1 lease=1 cap=1\nop=victim core=0\n";
    assert_eq!(String::from_utf8(small).unwrap(), expected);
}
