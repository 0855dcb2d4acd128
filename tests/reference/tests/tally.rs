//! The tally of short runs, counted by hand.

use reference::faults::Fault;
use reference::machine::{Answer, Step};
use reference::run::Record;
use reference::tally::{tally, Tallied, Tally};

const OPENING: &str = "fabric=1 cores=2 lines=1 width=1 lease=10\n";

const SECOND_OPENING: &str = "fabric=2 cores=2 lines=1 width=1 lease=10 cap=1\n";

const ZEROS: &str = "loads=0 stores=0 fences=0 asks=0 shares=0 renews=0 owns=0\n";

/// Core 0 gets a lease of line 0: one request, one share.
const SHARED: &str = "op=load core=0 line=0\nop=serve core=0\nop=receive core=0\n";

/// Core 1 becomes the owner of line 0: one request, one own.
const OWNED: &str = "op=store core=1 line=0 data=01\nop=serve core=1\nop=receive core=1\n";

/// The line of a whole journal.
fn line(journal: &str) -> String {
    let tallied = Tallied::of(journal.as_bytes(), Fault::None);
    assert!(tallied.adds_up(), "{tallied:?} of {journal}");
    String::from_utf8(tally(journal.as_bytes())).unwrap()
}

/// The line of an opening and these steps.
fn line_of(steps: &[&str]) -> String {
    line(&(OPENING.to_string() + &steps.concat()))
}

#[test]
fn the_sample() {
    let journal = include_str!("../../../examples/sample.journal");
    assert_eq!(line(journal), "loads=1 stores=1 fences=0 asks=1 shares=0 renews=0 owns=1\n");
}

#[test]
fn only_an_opening() {
    assert_eq!(line_of(&[]), ZEROS);
}

#[test]
fn each_commit_counts_by_its_kind() {
    let fence = "op=fence core=0\n";
    assert_eq!(line_of(&[fence]), "loads=0 stores=0 fences=1 asks=0 shares=0 renews=0 owns=0\n");
    let load = "op=load core=0 line=0\n";
    assert_eq!(line_of(&[SHARED, load, load]), "loads=2 stores=0 fences=0 asks=1 shares=1 renews=0 owns=0\n");
    let store = "op=store core=1 line=0 data=02\n";
    assert_eq!(
        line_of(&[OWNED, store, store]),
        "loads=0 stores=2 fences=0 asks=1 shares=0 renews=0 owns=1\n"
    );
}

#[test]
fn an_answer_counts_when_served_and_not_again_when_received() {
    let served = |steps: &str| steps.replace("op=receive core=0\n", "").replace("op=receive core=1\n", "");
    let shared = "loads=0 stores=0 fences=0 asks=1 shares=1 renews=0 owns=0\n";
    assert_eq!(line_of(&[&served(SHARED)]), shared);
    assert_eq!(line_of(&[SHARED]), shared);
    let owned = "loads=0 stores=0 fences=0 asks=1 shares=0 renews=0 owns=1\n";
    assert_eq!(line_of(&[&served(OWNED)]), owned);
    assert_eq!(line_of(&[OWNED]), owned);
    let renewed = "loads=0 stores=0 fences=0 asks=2 shares=1 renews=1 owns=0\n";
    let late = "op=advance core=0 by=11\n";
    assert_eq!(line_of(&[SHARED, late, &served(SHARED)]), renewed);
    assert_eq!(line_of(&[SHARED, late, SHARED]), renewed);
}

#[test]
fn a_drop_counts_nowhere() {
    let late = "op=advance core=0 by=11\nop=load core=0 line=0\nop=serve core=0\nop=evict core=0 line=0\n";
    let renewed = "loads=0 stores=0 fences=0 asks=2 shares=1 renews=1 owns=0\n";
    assert_eq!(line_of(&[SHARED, late]), renewed);
    assert_eq!(line_of(&[SHARED, late, "op=receive core=0\n"]), renewed);
}

#[test]
fn the_second_form_counts_the_same_and_its_own_steps_nowhere() {
    let second = |steps: &[&str]| line(&(SECOND_OPENING.to_string() + &steps.concat()));
    assert_eq!(second(&[]), ZEROS);
    let (drop, writeback) = ("op=drop core=0 line=0\n", "op=writeback core=1 line=0\n");
    let both = "loads=0 stores=0 fences=0 asks=2 shares=1 renews=0 owns=1\n";
    assert_eq!(second(&[SHARED, OWNED]), both);
    assert_eq!(second(&[SHARED, drop, OWNED, writeback]), both);
    // 26 and 30, before and after.
    assert_eq!(second(&[drop, writeback, SHARED, "op=writeback core=0 line=0\n", OWNED, drop, drop]), both);
    assert_eq!(second(&[SHARED, OWNED, "op=drop core=1 line=0\n", writeback, writeback]), both);
    // A late renewal prints drop as well.
    let late = "op=advance core=0 by=11\nop=load core=0 line=0\nop=serve core=0\n";
    let renewed = "loads=0 stores=0 fences=0 asks=2 shares=1 renews=1 owns=0\n";
    assert_eq!(second(&[SHARED, late, drop, "op=receive core=0\n"]), renewed);
    // The other form's step ends the run.
    assert_eq!(second(&[SHARED, "op=evict core=0 line=0\n", OWNED]), line_of(&[SHARED]));
    assert_eq!(line_of(&[SHARED, drop, OWNED]), line_of(&[SHARED]));
}

/// A victim and 31 count nowhere: neither as a request nor as an answer.
#[test]
fn a_full_cache_counts_nowhere() {
    let opening = "fabric=2 cores=1 lines=2 width=1 lease=10 cap=1\n";
    let waiting = "op=load core=0 line=1\nop=serve core=0\n";
    let (receive, victim) = ("op=receive core=0\n", "op=victim core=0\n");
    let both = "loads=0 stores=0 fences=0 asks=2 shares=2 renews=0 owns=0\n";
    let counted = |steps: &[&str]| line(&(opening.to_string() + &steps.concat()));
    assert_eq!(counted(&[SHARED, waiting]), both);
    assert_eq!(counted(&[victim, SHARED, victim, waiting, receive, victim, receive]), both);
    let drop = "op=drop core=0 line=0\n";
    assert_eq!(counted(&[SHARED, waiting, receive, victim, drop, receive, victim]), both);
}

#[test]
fn a_recall_counts_nowhere_and_its_core_still_asks() {
    let asked = "loads=0 stores=0 fences=0 asks=2 shares=0 renews=0 owns=1\n";
    let load = "op=load core=0 line=0\n";
    assert_eq!(line_of(&[OWNED, load]), asked);
    let recalled = [OWNED, load, "op=serve core=0\n", "op=serve core=0\n"];
    assert_eq!(line_of(&recalled), asked);
    let journal = OPENING.to_string() + &recalled.concat();
    assert_eq!(Tallied::of(journal.as_bytes(), Fault::None).still_asked, 1);
    let answered = "op=yield line=0\nop=take line=0\nop=serve core=0\n";
    let shared = "loads=0 stores=0 fences=0 asks=2 shares=1 renews=0 owns=1\n";
    assert_eq!(line_of(&[&recalled.concat(), answered]), shared);
}

#[test]
fn refusals_count_nowhere() {
    for (refused, number) in [
        ("op=load core=2 line=0\n", 3),
        ("op=load core=0 line=1\n", 4),
        ("op=store core=0 line=0 data=0102\n", 5),
        ("op=advance core=0 by=0\n", 6),
        ("op=store core=0 line=0 data=01\n", 20),
        ("op=serve core=1\n", 21),
        ("op=receive core=0\n", 22),
        ("op=yield line=0\n", 23),
        ("op=take line=0\n", 25),
        ("op=evict core=0 line=0\n", 26),
    ] {
        let steps = ["op=load core=0 line=0\nop=fence core=1\n", refused, "op=fence core=1\n"];
        let listing = reference::listing::listing((OPENING.to_string() + &steps.concat()).as_bytes());
        let listing = String::from_utf8(listing).unwrap();
        assert!(listing.contains(&format!("n=3 refused={number}\n")), "{listing}");
        assert_eq!(line_of(&steps), "loads=0 stores=0 fences=2 asks=1 shares=0 renews=0 owns=0\n");
    }
}

#[test]
fn requests_that_are_still_asked() {
    let steps = "op=load core=0 line=0\nop=store core=1 line=0 data=01\n";
    assert_eq!(line_of(&[steps]), "loads=0 stores=0 fences=0 asks=2 shares=0 renews=0 owns=0\n");
    let journal = OPENING.to_string() + steps;
    assert_eq!(Tallied::of(journal.as_bytes(), Fault::None).still_asked, 2);
}

#[test]
fn a_line_that_ends_the_run_adds_nothing_and_takes_nothing_away() {
    let counted = "loads=0 stores=0 fences=1 asks=1 shares=1 renews=0 owns=0\n";
    let long = format!("op=fence core={}\n", "0".repeat(200));
    for bad in ["op=fence core=1", &long, "\n", "op=fences core=1\n", "op=fence core=01\n"] {
        assert_eq!(line_of(&[SHARED, "op=fence core=1\n", bad]), counted, "{bad}");
        if bad.ends_with('\n') {
            assert_eq!(line_of(&[SHARED, "op=fence core=1\n", bad, "op=fence core=1\n"]), counted, "{bad}");
        }
    }
    let bad_data = "op=store core=1 line=0 data=0\n";
    assert_eq!(line_of(&[SHARED, "op=fence core=1\n", bad_data, "op=fence core=1\n"]), counted);
}

#[test]
fn a_refused_opening_gives_zeros() {
    let after = "op=fence core=0\nop=load core=0 line=0\n";
    for opening in [
        "fabric=1 cores=17 lines=1 width=1 lease=1\n",
        "fabric=1 cores=1 lines=0 width=1 lease=1\n",
        "fabric=0 cores=1 lines=1 width=1 lease=1\n",
        "fabric=2 cores=17 lines=1 width=1 lease=1 cap=1\n",
        "fabric=2 cores=1 lines=1 width=1 lease=1 cap=2\n",
        "fabric=2 cores=1 lines=1 width=1 lease=1\n",
        "fabric=1 cores=1 lines=1 width=1 lease=1 cap=1\n",
        "fabric=2 cores=1 lines=1 width=1\n",
        "fabric=1 cores=01 lines=1 width=1 lease=1\n",
        "op=fence core=0\n",
        "\n",
        &format!("{}\n", "a".repeat(201)),
    ] {
        assert_eq!(line(&(opening.to_string() + after)), ZEROS, "{opening}");
    }
    assert_eq!(line(OPENING.trim_end()), ZEROS);
    assert_eq!(line(""), ZEROS);
    let fences = |count: usize| OPENING.to_string() + &"op=fence core=0\n".repeat(count);
    let most = (65_536 - OPENING.len()) / 16;
    assert_eq!(
        line(&fences(most)),
        format!("loads=0 stores=0 fences={most} asks=0 shares=0 renews=0 owns=0\n")
    );
    assert_eq!(line(&fences(most + 1)), ZEROS);
}

#[test]
fn only_a_serve_gives() {
    for (step, answer, counted) in [
        (Some(Step::Serve { core: 0 }), Answer::Share, 1),
        (Some(Step::Receive { core: 0 }), Answer::Share, 0),
        (None, Answer::Refused(11), 0),
        (None, Answer::Open, 0),
    ] {
        let mut tally = Tally::default();
        tally.count(&Record { place: 0, step, answer });
        assert_eq!(tally, Tally { shares: counted, ..Tally::default() });
    }
}

#[test]
fn a_sum_that_is_wrong_is_seen() {
    let tally = Tally { asks: 5, shares: 1, renews: 1, owns: 1, ..Tally::default() };
    for still_asked in 0..5 {
        assert_eq!(Tallied { tally, still_asked }.adds_up(), still_asked == 2);
    }
}
