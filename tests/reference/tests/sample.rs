//! The sample of 01, "Journal and driver", byte for byte, and what a run does at
//! its ends.

use reference::listing::listing;

const JOURNAL: &str = "\
fabric=1 cores=1 lines=1 width=1 lease=10
op=store core=0 line=0 data=07
op=serve core=0
op=receive core=0
op=store core=0 line=0 data=07
op=load core=0 line=0
op=take line=0
";

const LISTING: &str = "\
n=0 done=open
n=1 done=ask
n=2 done=own
n=3 done=own
n=4 commit=store core=0 line=0 ts=1 data=07
n=5 commit=load core=0 line=0 ts=0 data=07
n=6 refused=25
end=6 commits=2 refused=1
";

fn text(journal: &str) -> String {
    String::from_utf8(listing(journal.as_bytes())).unwrap()
}

#[test]
fn the_sample() {
    assert_eq!(text(JOURNAL), LISTING);
}

/// The sample's line given back and lent again, in both forms. Core 0's store at 1
/// comes back as (1, 1); asked at lts 0, the lease of the copy ends at 10.
const GIVEN_BACK: &str = "\
fabric=2 cores=1 lines=1 width=1 lease=10 cap=1
op=store core=0 line=0 data=07
op=serve core=0
op=receive core=0
op=store core=0 line=0 data=07
op=writeback core=0 line=0
op=take line=0
op=load core=0 line=0
op=serve core=0
op=receive core=0
op=load core=0 line=0
op=drop core=0 line=0
";

const GIVEN_BACK_LISTING: &str = "\
n=0 done=open
n=1 done=ask
n=2 done=own
n=3 done=own
n=4 commit=store core=0 line=0 ts=1 data=07
n=5 done=writeback
n=6 done=take
n=7 done=ask
n=8 done=share
n=9 done=share
n=10 commit=load core=0 line=0 ts=1 data=07
n=11 done=drop
end=11 commits=2 refused=0
";

#[test]
fn the_second_form_prints_drop_and_writeback_where_the_first_prints_evict() {
    assert_eq!(text(GIVEN_BACK), GIVEN_BACK_LISTING);
    let evict = |text: &str| text.replace("drop", "evict").replace("writeback", "evict");
    let first = evict(GIVEN_BACK).replace("fabric=2", "fabric=1").replace(" cap=1", "");
    assert_eq!(text(&first), evict(GIVEN_BACK_LISTING));
}

#[test]
fn a_bad_opening_ends_at_0() {
    for (journal, number) in [
        ("", 11),
        ("\n", 11),
        ("op=take line=0\n", 11),
        ("fabric=1 cores=1 lines=1 width=1 lease=1", 10),
        ("fabric=1 cores= lines=1 width=1 lease=1\nop=take line=0\n", 12),
        ("fabric=1 cores=0 lines=1 width=1 lease=1\nop=take line=0\n", 7),
        ("fabric=1 cores=17 lines=1 width=1 lease=x\n", 12),
        ("fabric=2 cores=1 lines=1 width=1 lease=1 cap=1", 10),
        ("fabric=2 cores=17 lines=1 width=1 lease=1 cap=1\nop=take line=0\n", 7),
        ("fabric=2 cores=1 lines=1 width=1 lease=1\n", 11),
        ("fabric=1 cores=1 lines=1 width=1 lease=1 cap=1\n", 11),
        ("fabric=2 cores=1 lines=1 width=1 lease=1 cap=0\nop=take line=0\n", 7),
        ("fabric=2 cores=1 lines=3 width=1 lease=1 cap=4\nop=take line=0\n", 7),
        ("fabric=2 cores=1 lines=65 width=1 lease=1 cap=64\n", 7),
        ("fabric=2 cores=17 lines=1 width=1 lease=1 cap=\n", 12),
        ("fabric=0 cores=1 lines=1 width=1 lease=1\n", 11),
        ("fabric=6 cores=1 lines=1 width=1 lease=1\n", 11),
    ] {
        assert_eq!(text(journal), format!("n=0 refused={number}\nend=0 commits=0 refused=1\n"), "{journal}");
    }
}

#[test]
fn a_bad_line_ends_the_run_and_is_counted() {
    let opening = "fabric=1 cores=1 lines=1 width=1 lease=1\n";
    for (line, number) in [
        ("op=fence core=0", 10),
        ("\n", 11),
        ("op=fence core=01\nop=fence core=0\n", 12),
        ("op=store core=0 line=0 data=0\nop=fence core=0\n", 13),
    ] {
        let journal = format!("{opening}op=fence core=0\nop=take line=0\n{line}");
        let expected = format!(
            "n=0 done=open\nn=1 commit=fence core=0 ts=0\nn=2 refused=25\nn=3 refused={number}\n\
             end=3 commits=1 refused=2\n"
        );
        assert_eq!(text(&journal), expected);
    }
}

#[test]
fn the_longest_journal() {
    let opening = "fabric=1 cores=1 lines=1 width=1 lease=1\n";
    let longest = |bytes: usize| {
        let mut journal = opening.as_bytes().to_vec();
        reference::generate::fill_up(&mut journal, bytes);
        assert_eq!(journal.len(), bytes);
        String::from_utf8(listing(&journal)).unwrap()
    };
    assert!(longest(65_536).starts_with("n=0 done=open\nn=1 done=advance\n"));
    assert_eq!(longest(65_537), "n=0 refused=14\nend=0 commits=0 refused=1\n");
}

#[test]
fn only_an_opening() {
    let opening = "fabric=1 cores=1 lines=1 width=1 lease=1\n";
    assert_eq!(text(opening), "n=0 done=open\nend=0 commits=0 refused=0\n");
}
