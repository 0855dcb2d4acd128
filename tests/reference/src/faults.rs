//! Faults that can be switched on, to show that the kept journals notice them.
//!
//! `machine.rs` knows nothing of them: each fault bends the right step from the
//! outside. Faults of the driver are asked for by `run.rs` and `listing.rs`, those
//! of the tally by `tally.rs`, and those of the conversion, which are in
//! `conversion_faults.rs`, by `convert.rs`. What readers that forgive take a journal
//! for is in `forgiving.rs`.

use std::borrow::Cow;
use std::ops::Range;

use crate::journal::{self, kind_name, unknown_kind, Form};
use crate::listing::Counts;
use crate::machine::*;
use crate::run::Record;

/// Defines the faults, their names and one sentence about each.
macro_rules! faults {
    ($($fault:ident $name:literal $meaning:literal)*) => {
        #[derive(Clone, Copy, PartialEq, Eq, Debug)]
        pub enum Fault {
            /// No fault: document 01.
            None,
            $(#[doc = $meaning] $fault,)*
        }

        impl Fault {
            pub const ALL: &'static [Fault] = &[$(Fault::$fault,)*];

            pub fn name(self) -> &'static str {
                match self { Fault::None => "none", $(Fault::$fault => $name,)* }
            }

            pub fn meaning(self) -> &'static str {
                match self { Fault::None => "document 01", $(Fault::$fault => $meaning,)* }
            }
        }
    };
}

faults! {
    // Named in 01, "Faults I have met".
    OwnerReadLeavesRts "owner-read-leaves-rts" "an owner's read does not stretch its lease: rts stays below the read"
    CleanLoadLeavesLts "clean-load-leaves-lts" "a load of an owned line not yet dirty leaves lts below wts"
    StoreAtRts "store-at-rts" "a store to a line not yet dirty commits at rts, where a shared reader may stand"
    RenewalRevives "renewal-revives" "a renewal makes an evicted copy again"
    TiesByCore "ties-by-core" "commits of equal timestamp are sorted by core"
    // Of the store whose bytes are given in digits (02, "Store bytes without the scratch line").
    SwapsHalves "swaps-halves" "a store stores the halves of each byte swapped, and prints them right"
    StoresOnePlaceOff "stores-one-place-off" "a store's bytes lie one place off"
    StoresHalfALine "stores-half-a-line" "a store stores the first half of its bytes"
    AskStores "ask-stores" "a store that asks writes its bytes"
    Refusal27Stores "refusal-27-stores" "a store that is refused with 27 writes its bytes"
    // Named in 01, "Handshake".
    AlwaysAsks "always-asks" "every load and store asks and nothing ever commits"
    ServeMovesNothing "serve-moves-nothing" "a serve moves no bytes"
    LaterServesMoveNothing "later-serves-move-nothing" "every serve after the first grant moves no bytes"
    MovesNothing "moves-nothing" "no step but a store moves bytes"
    Early20 "early-20" "20 for a load or store that hits while the slot is taken"
    Early22 "early-22" "22 for a renewal whose copy is gone"
    Early27Store "early-27-store" "27 for a store to a line not yet dirty where rts + 1 is exactly 4,294,967,295"
    Early27Advance "early-27-advance" "27 for an advance where lts + by is exactly 4,294,967,295"
    Early27Serve "early-27-serve" "27 for a serve where asked lts + lease is exactly 4,294,967,295"
    Early27Owned "early-27-owned" "27 for a serve on an owned line"
    Early27StoreServed "early-27-store-served" "27 for a serve of a store where asked lts + lease passes the greatest timestamp"
    RefusesAll "refuses-all" "every step is refused"
    ConstantCommit "constant-commit" "every load, store and fence answers one constant commit"
    InventedCounts "invented-counts" "the end line's counts are invented"
    // Skipped steps.
    SkipLoad "skip-load" "load steps are skipped in silence"
    SkipStore "skip-store" "store steps are skipped in silence"
    SkipFence "skip-fence" "fence steps are skipped in silence"
    SkipEvict "skip-evict" "evict steps are skipped in silence"
    SkipDrop "skip-drop" "drop steps are skipped in silence"
    SkipWriteback "skip-writeback" "writeback steps are skipped in silence"
    SkipAdvance "skip-advance" "advance steps are skipped in silence"
    SkipServe "skip-serve" "serve steps are skipped in silence"
    SkipReceive "skip-receive" "receive steps are skipped in silence"
    SkipYield "skip-yield" "yield steps are skipped in silence"
    SkipTake "skip-take" "take steps are skipped in silence"
    SkipVictim "skip-victim" "victim steps are skipped in silence"
    // Steps that answer by the right word and do nothing.
    IdleLoad "idle-load" "a load answers rightly and changes nothing"
    IdleStore "idle-store" "a store answers rightly and changes nothing"
    IdleFence "idle-fence" "a fence answers rightly and changes nothing"
    IdleEvict "idle-evict" "an evict answers rightly and changes nothing"
    IdleDrop "idle-drop" "a drop answers rightly and changes nothing"
    IdleWriteback "idle-writeback" "a writeback answers rightly and changes nothing"
    IdleAdvance "idle-advance" "an advance answers rightly and changes nothing"
    IdleServe "idle-serve" "a serve answers rightly and changes nothing"
    IdleReceive "idle-receive" "a receive answers rightly and changes nothing"
    IdleYield "idle-yield" "a yield answers rightly and changes nothing"
    IdleTake "idle-take" "a take answers rightly and changes nothing"
    // Tables read wrongly.
    ShortLease "short-lease" "a serve does not stretch the manager's rts"
    TakeKeepsRecall "take-keeps-recall" "a take keeps the recall"
    LoadWeakensFlush "load-weakens-flush" "serving a load turns a standing flush into a downgrade"
    StoreLeavesDowngrade "store-leaves-downgrade" "serving a store leaves a standing downgrade"
    StoreClearsRecall "store-clears-recall" "an owner's store clears the recall"
    LoadClearsRecall "load-clears-recall" "an owner's load clears the recall"
    ReceiveClearsRecall "receive-clears-recall" "the receive of an owned line clears the recall"
    StretchAtDowngrade "stretch-at-downgrade" "a downgrade also stretches the former owner's lease, as in Figure 1 of the Tardis 2.0 paper"
    AskOverAnswer "ask-over-answer" "20 is left out where the slot has an answer, which a new request then overwrites"
    RenewalLeavesRts "renewal-leaves-rts" "a renewal leaves the copy's rts"
    RenewalByLease "renewal-by-lease" "a renewal brings asked lts + lease, and not the manager's rts"
    SharedEvictDropsWriteback "shared-evict-drops-writeback" "the eviction of a shared copy drops the writeback in flight"
    SharedEvictWritesBack "shared-evict-writes-back" "the eviction of a shared copy makes a writeback"
    OwnLineGranted "own-line-granted" "a serve of the line's own owner grants it at once"
    AnswersAtCore0 "answers-at-core-0" "the bytes of every answer lie at core 0's place"
    AnswersOverWritebacks "answers-over-writebacks" "the bytes of a core's answer lie at the place of the writeback of that number"
    WritebacksAtLine0 "writebacks-at-line-0" "the bytes of every writeback lie at line 0's place"
    RefusalChangesClock "refusal-changes-clock" "a refused step changes a timestamp"
    RefusalChangesBytes "refusal-changes-bytes" "a refused step changes a byte"
    // Drop and writeback.
    Early30 "early-30" "30 for a drop or writeback without a copy"
    Early30Evict "early-30-evict" "30 for an evict of an owned copy"
    Refusal26For30 "26-for-30" "26 for a drop or writeback of a copy of the other state"
    Refusal30LosesCopy "30-loses-copy" "a drop or writeback that is refused with 30 loses the copy"
    DropTakesOwned "drop-takes-owned" "a drop takes an owned copy too, whose bytes are lost"
    WritebackTakesShared "writeback-takes-shared" "a writeback takes a shared copy too"
    WritebackLosesRts "writeback-loses-rts" "a writeback has its wts in the place of its rts"
    WritebackLosesWts "writeback-loses-wts" "a writeback has a wts of 0"
    WritebackLosesBytes "writeback-loses-bytes" "a writeback moves no bytes"
    WritebackLeavesCopy "writeback-leaves-copy" "a writeback leaves the owned copy"
    WritebackLeavesShared "writeback-leaves-shared" "a writeback leaves a shared copy, as a downgrade does"
    WritebackTakenAtOnce "writeback-taken-at-once" "a writeback needs no take"
    WritebackClearsRecall "writeback-clears-recall" "a writeback clears the recall"
    DropAsEvict "drop-as-evict" "a drop is read as an evict"
    WritebackAsEvict "writeback-as-evict" "a writeback is read as an evict"
    DropAnswersEvict "drop-answers-evict" "a drop answers evict"
    WritebackAnswersEvict "writeback-answers-evict" "a writeback answers evict"
    EvictAnswersByCopy "evict-answers-by-copy" "an evict answers drop or writeback, whichever it did"
    // Caches with a size.
    HoldsOneMore "holds-one-more" "31 is given only while more than cap copies are held"
    Early31 "early-31" "31 while one copy less than cap is held"
    NoRoomForShareOnly "31-for-share-only" "31 is not given for own"
    NoRoomForOwnOnly "31-for-own-only" "31 is not given for share"
    HeldLine31 "31-for-held-line" "31 also where the line is held"
    Renewal31 "31-for-renewal" "31 for a renewal while cap copies are held"
    Early31Before22 "31-before-22" "31 in the place of 22 while cap copies are held"
    Refusal22For31 "22-for-31" "22 in the place of 31"
    Refusal31EmptiesSlot "31-empties-slot" "a receive that is refused with 31 empties the slot"
    Refusal31AsksAgain "31-asks-again" "a receive that is refused with 31 leaves the slot asked"
    ReceiveMakesRoom "receive-makes-room" "a receive gives up its core's victim where 31 is due"
    CountsAllCores "31-counts-all-cores" "the copies of all cores are counted for 31"
    CountsCore0 "31-counts-core-0" "the copies of core 0 are counted for 31"
    CountsOwnedOnly "31-counts-owned-only" "shared copies are not counted for 31"
    CountsSharedOnly "31-counts-shared-only" "owned copies are not counted for 31"
    DropMakesNoRoom "drop-makes-no-room" "a dropped copy still counts for 31"
    WritebackMakesNoRoom "writeback-makes-no-room" "a copy that was written back still counts for 31"
    FlushMakesNoRoom "flush-makes-no-room" "a copy that was flushed still counts for 31"
    DowngradeMakesRoom "downgrade-makes-room" "a copy that was downgraded does not count for 31 any more"
    VictimTiesToLarger "victim-ties-to-larger" "of copies with equal rts the one of the larger line is the victim"
    VictimTiesToShared "victim-ties-to-shared" "of copies with equal rts a shared one is the victim"
    VictimByWts "victim-by-wts" "the copy with the smallest wts is the victim"
    VictimByLine "victim-by-line" "the smallest held line is the victim"
    VictimLargestRts "victim-largest-rts" "the copy with the largest rts is the victim"
    VictimByManager "victim-by-manager" "the manager's rts decides on the victim of shared copies"
    VictimLine0 "victim-line-0" "line 0 is always the victim"
    VictimNotHeld "victim-not-held" "a line that is not held counts as one with an rts of 0"
    VictimOfCore0 "victim-of-core-0" "the victim is always core 0's"
    VictimSkipsOwned "victim-skips-owned" "an owned copy is never the victim"
    VictimSkipsShared "victim-skips-shared" "a shared copy is never the victim"
    VictimDropsCopy "victim-drops-copy" "a victim's copy is given up at once"
    VictimTakesTurns "victim-takes-turns" "a shared victim gets the largest rts, so that another is next"
    VictimWithoutCopies "victim-without-copies" "a core without copies gets line 0, and not 26"
    VictimFullOnly "victim-full-only" "26 for a victim where the cache is not full"
    // Repeated stores. A store to a dirty line at max(lts, sts), without rts, is none of them: no run shows it,
    // since rts of a dirty copy never passes both clocks (`tests/repeated.rs`).
    DirtyStorePastRts "dirty-store-past-rts" "a store to a dirty line commits past its rts, as one to a line not yet dirty does"
    DirtyStore27 "dirty-store-27" "27 for a store to a dirty line where rts + 1 passes the greatest timestamp"
    SlotStoresPastRts "slot-stores-past-rts" "a store to a dirty line commits past its rts while its core's slot is in use"
    SlotStore27 "slot-store-27" "27 for a store to a dirty line where rts + 1 passes the greatest timestamp and its core's slot is in use"
    DirtyStoreBeforeLts "dirty-store-before-lts" "a store to a dirty line commits at max(sts, rts)"
    DirtyStoreBeforeSts "dirty-store-before-sts" "a store to a dirty line commits at max(lts, rts)"
    DirtyStoreAtWts "dirty-store-at-wts" "a store to a dirty line commits at the timestamp of the store before it"
    DirtyKeptByDowngrade "dirty-kept-by-downgrade" "a line that was dirty when it was downgraded is dirty as soon as its core owns it again"
    DirtyKeptByEviction "dirty-kept-by-eviction" "a line that was dirty when it was evicted, written back or flushed is dirty as soon as its core owns it again"
    DirtyWhenOwned "dirty-when-owned" "a line is dirty as soon as it is owned"
    Store27LeftOut "store-27-left-out" "a store to a line not yet dirty commits at the greatest timestamp where rts + 1 passes it, and 27 is due"
    // Fences. One that also moves sts is none of them: no later step shows it, since lts is not below sts then.
    FenceOfEveryCore "fence-of-every-core" "a fence brings the lts of every core up to its timestamp"
    FenceToSts "fence-to-sts" "a fence brings lts to sts also where lts is greater"
    SlotFenceLeavesLts "slot-fence-leaves-lts" "a fence leaves lts while its core's slot is in use"
    SlotFence20 "slot-fence-20" "20 for a fence while its core's slot is in use"
    FenceMovesRequest "fence-moves-request" "a fence also moves the lts with which its core has asked"
    FenceCleans "fence-cleans" "a fence leaves its core's owned lines not dirty"
    FenceDropsShared "fence-drops-shared" "a fence gives up its core's shared copies"
    StoreFences "store-fences" "a store brings lts up to its timestamp, as a fence after it does"
    LoadFences "load-fences" "a load first brings lts up to sts, as a fence before it does"
    AdvanceFences "advance-fences" "an advance also brings lts up to sts, as a fence does"
    // The driver.
    RefusalAsCommit "refusal-as-commit" "the end line counts a refusal as a commit"
    OtherCoreTs "other-core-ts" "a commit prints the lts of core 0"
    GoesOnAfter11 "goes-on-after-11" "the run goes on after a line that is no form of the grammar"
    Takes65537 "takes-65537" "a journal of 65,537 bytes is taken"
    StopsAfter64K "stops-after-64k" "the listing ends after its first 65,536 bytes"
    LeaseAboveTaken "lease-above-taken" "a lease above 1,000 is taken"
    WidthAboveTaken "width-above-taken" "a width of 65 is taken"
    ZeroLinesTaken "zero-lines-taken" "an engine without lines is opened"
    ZeroCapTaken "zero-cap-taken" "a cap of 0 is taken"
    CapAboveTaken "cap-above-taken" "a cap above lines is taken"
    VictimAsCommit "victim-as-commit" "the end line counts a victim as a commit"
    // The reader.
    UnknownStepSkipped "unknown-step-skipped" "a line with an unknown step kind is passed over"
    TrailingBlankTaken "trailing-blank-taken" "a blank at a line's end is passed over"
    EmptyNumberAs0 "empty-number-as-0" "a number without digits is 0"
    NumberUpToLetter "number-up-to-letter" "a number ends before its first other byte"
    TabSkipped "tab-skipped" "a tab is passed over"
    EmptyDataTaken "empty-data-taken" "empty data are one zero byte"
    OddDataCut "odd-data-cut" "the last digit of odd data is left out"
    // Readers that forgive.
    SkipsEmptyLines "skips-empty-lines" "an empty line is passed over"
    SkipsComments "skips-comments" "a line that begins with # is passed over"
    TakesCarriageReturns "takes-carriage-returns" "a carriage return at the end of a line is passed over"
    TakesLeadingBlanks "takes-leading-blanks" "blanks at a line's start are passed over"
    DropsZeroBytes "drops-zero-bytes" "zero bytes are passed over"
    TakesALineWithoutNewline "takes-a-line-without-newline" "a last line without newline is taken"
    TakesKeysInAnyOrder "takes-keys-in-any-order" "the keys of a line may stand in any order, line= before core= say"
    TakesPlusSigns "takes-plus-signs" "a number may have a plus sign before it"
    TakesLeadingZeros "takes-leading-zeros" "a number may have leading zeros"
    TakesUpperCase "takes-upper-case" "keys and step kinds may be in upper case"
    TakesUpperCaseHex "takes-upper-case-hex" "data may be in upper-case hex"
    // The reader's two forms.
    EvictInForm2 "evict-in-form-2" "evict is a step of fabric=2 too"
    DropInForm1 "drop-in-form-1" "drop is a step of fabric=1 too"
    WritebackInForm1 "writeback-in-form-1" "writeback is a step of fabric=1 too"
    Form2AsForm1 "form-2-as-form-1" "a first line fabric=2 opens a journal of fabric=1"
    Form1AsForm2 "form-1-as-form-2" "a first line fabric=1 opens a journal of fabric=2"
    VictimInForm1 "victim-in-form-1" "victim is a step of fabric=1 too"
    CapInForm1 "cap-in-form-1" "a first line fabric=1 may have a cap"
    NoCapInForm2 "no-cap-in-form-2" "a first line fabric=2 may lack its cap"
    CapPassedOver "cap-passed-over" "the cap of a first line fabric=2 is passed over, and cap is lines"
    Form1WithCap1 "form-1-with-cap-1" "a first line fabric=1 means a cap of 1"
    CapPastGreatest "cap-past-greatest" "a cap above 4,294,967,295 is taken as lines"
    LaterOpeningPassedOver "later-opening-passed-over" "a first line further on is passed over"
    // The tally.
    TallyReceivedShare "tally-received-share" "the tally counts a share where it is received too"
    TallyReceivedRenew "tally-received-renew" "the tally counts a renewal where it is received too"
    TallyReceivedOwn "tally-received-own" "the tally counts a grant of ownership where it is received too"
    TallyDropAsRenew "tally-drop-as-renew" "the tally counts a renewal that is dropped as one more"
    TallyDropStepAsRenew "tally-drop-step-as-renew" "the tally counts a drop step as a renewal"
    TallyWritebackAsOwn "tally-writeback-as-own" "the tally counts a writeback as a grant of ownership"
    TallyVictimAsAsk "tally-victim-as-ask" "the tally counts a victim as a request"
    Tally31AsAsk "tally-31-as-ask" "the tally counts a receive that is refused with 31 as a request"
    TallyRecallAsAsk "tally-recall-as-ask" "the tally counts a recall as a request"
    TallyRefusalAsAsk "tally-refusal-as-ask" "the tally counts a load or store that is refused with 20 as a request"
    TallySwapsCommits "tally-swaps-commits" "the tally counts loads as stores, and stores as loads"
    TallyResetByRefusal "tally-reset-by-refusal" "a refusal sets the tally back to zeros"
    TallyLostAtBadLine "tally-lost-at-bad-line" "the tally is all zeros where a line ends the run"
    // The conversion to the second form.
    To2AllDrop "to2-all-drop" "every evict becomes a drop"
    To2AllWriteback "to2-all-writeback" "every evict becomes a writeback"
    To2AnyCopy "to2-any-copy" "the evict of a shared copy becomes a writeback too"
    To2AllButShared "to2-all-but-shared" "an evict where there is no copy becomes a writeback too"
    To2DirtyOnly "to2-dirty-only" "the evict of an owned copy that is not dirty becomes a drop"
    To2ByLastMachine "to2-by-last-machine" "the machine at the run's end says whether a copy is owned"
    To2OneStepEarly "to2-one-step-early" "the machine before the step above says whether a copy is owned"
    To2ByManager "to2-by-manager" "the manager's owner of the line says whether a copy is owned"
    To2OfAnyCore "to2-of-any-core" "an evict becomes a writeback where any core owns a copy of the line"
    To2OfAnyLine "to2-of-any-line" "an evict becomes a writeback where the core owns a copy of any line"
    To2WrappedCore "to2-wrapped-core" "the copy of a core that there is not is that of core modulo cores"
    To2WrappedLine "to2-wrapped-line" "the copy of a line that there is not is that of line modulo lines"
    To2FlatIndex "to2-flat-index" "a copy is the one at core x lines + line, whatever the line is"
    To2EvictKept "to2-evict-kept" "evict stays in a journal of fabric=2"
    To2RefusedLeftOut "to2-refused-left-out" "an evict that is refused is left out"
    To2NoCap "to2-no-cap" "the first line of fabric=2 has no cap"
    To2Cap1 "to2-cap-1" "the first line of fabric=2 has a cap of 1"
    To2CapOfCores "to2-cap-of-cores" "the first line of fabric=2 has a cap of as many as cores"
    // The conversion to the first form.
    To1DropKept "to1-drop-kept" "drop stays in a journal of fabric=1"
    To1WritebackKept "to1-writeback-kept" "writeback stays in a journal of fabric=1"
    To1CapKept "to1-cap-kept" "the first line of fabric=1 has a cap"
    To1CapTaken "to1-cap-taken" "a cap other than lines is taken"
    To1VictimKept "to1-victim-kept" "victim stays in a journal of fabric=1"
    To1VictimLeftOut "to1-victim-left-out" "a victim step is left out in silence"
    To1RefusedVictimLeftOut "to1-refused-victim-left-out" "a victim step that is refused is left out in silence"
    To130Taken "to1-30-taken" "a step that answers 30 becomes an evict"
    To130OfDropTaken "to1-30-of-drop-taken" "a drop that answers 30 becomes an evict"
    To130OfWritebackTaken "to1-30-of-writeback-taken" "a writeback that answers 30 becomes an evict"
    To132For3 "to1-32-for-3" "32 for a drop or writeback that answers 3"
    To132For4 "to1-32-for-4" "32 for a drop or writeback that answers 4"
    To132For26 "to1-32-for-26" "32 for a drop or writeback that answers 26"
    To132ForRefusals "to1-32-for-refusals" "32 for a step of another kind that is refused"
    To132Before14 "to1-32-before-14" "32 before the input's 14"
    To132BeforeLines "to1-32-before-lines" "32 before a malformed line's number"
    To132Before7 "to1-32-before-7" "32 before 7"
    To1Room14Before32 "to1-14-before-32" "the result's 14 before 32"
    // Conversions both ways.
    ConvertLinesBefore14 "convert-lines-before-14" "a malformed line's number before the input's 14"
    Convert7Before14 "convert-7-before-14" "7 before the input's 14"
    Convert7BeforeLines "convert-7-before-lines" "7 before the number of a malformed line further on"
    ConvertRoomBeforeLines "convert-room-before-lines" "the result's 14 before a malformed line's number"
    ConvertRoomBefore7 "convert-room-before-7" "the result's 14 before 7"
    ConvertStopsAtBadLine "convert-stops-at-bad-line" "the journal ends at a malformed line, as a run does"
    ConvertBadLinePassedOver "convert-bad-line-passed-over" "the first malformed line after the opening is passed over"
    ConvertLastBadLine "convert-last-bad-line" "the last malformed line gives the number"
    ConvertSmallestNumber "convert-smallest-number" "of several malformed lines the smallest number is given"
    ConvertNewlineAdded "convert-newline-added" "a last line without newline is taken"
    ConvertOtherFormCopied "convert-other-form-copied" "a journal that is of the result's form already is copied"
    ConvertEmptyTaken "convert-empty-taken" "empty input gives an empty result"
    ConvertLongResult "convert-long-result" "a result over 65,536 bytes is given"
    ConvertShortRoom "convert-short-room" "14 for a result of exactly 65,536 bytes"
    ConvertRefusedLeftOut "convert-refused-left-out" "steps that are refused are left out"
    ConvertDataToWidth "convert-data-to-width" "a store's data are cut to the width"
    ConvertUpperCase "convert-upper-case" "data are spelled in upper case"
    ConvertSignedNumbers "convert-signed-numbers" "numbers from 2,147,483,648 on are spelled as negative ones"
    ConvertNoLastNewline "convert-no-last-newline" "the last line's newline is left out"
}

impl Fault {
    pub fn named(name: &str) -> Option<Fault> {
        Fault::ALL.iter().copied().find(|fault| fault.name() == name)
    }

    /// Bytes that a journal may have above the limit.
    pub fn journal_excess(self) -> usize {
        usize::from(self == Fault::Takes65537)
    }

    /// What the end line says under this fault.
    pub fn distort_counts(self, counts: Counts) -> Counts {
        match self {
            Fault::InventedCounts => Counts { commits: counts.end, refused: 0, ..counts },
            Fault::VictimAsCommit => Counts { commits: counts.commits + counts.victims, ..counts },
            Fault::RefusalAsCommit => Counts { commits: counts.commits + counts.refused, ..counts },
            _ => counts,
        }
    }

    /// How many bytes of a listing are written.
    pub fn longest_listing(self) -> usize {
        if self == Fault::StopsAfter64K {
            65_536
        } else {
            usize::MAX
        }
    }

    /// The records that a tally with this fault counts, in the place of a run's own.
    pub fn tallied(self, records: Vec<Record>) -> Vec<Record> {
        let refused = |record: &Record| matches!(record.answer, Answer::Refused(_));
        match self {
            Fault::TallyResetByRefusal => {
                let kept = records.iter().rposition(refused).map_or(0, |at| at + 1);
                records[kept..].to_vec()
            }
            Fault::TallyLostAtBadLine if records.last().is_some_and(Record::ends_run) => Vec::new(),
            _ => records.into_iter().map(|record| self.tallied_as(record)).collect(),
        }
    }

    /// The record that a tally with this fault takes a record for.
    fn tallied_as(self, record: Record) -> Record {
        let taken_for = |step, answer| Record { step: Some(step), answer, ..record };
        let Some(step) = record.step else {
            return record;
        };
        match (self, step, record.answer) {
            (Fault::TallyReceivedShare, Step::Receive { core }, Answer::Share)
            | (Fault::TallyReceivedRenew, Step::Receive { core }, Answer::Renew)
            | (Fault::TallyReceivedOwn, Step::Receive { core }, Answer::Own) => {
                taken_for(Step::Serve { core }, record.answer)
            }
            (Fault::TallyDropAsRenew, Step::Receive { core }, Answer::Drop) => {
                taken_for(Step::Serve { core }, Answer::Renew)
            }
            (Fault::TallyDropStepAsRenew, Step::Drop { core, .. }, Answer::Drop) => {
                taken_for(Step::Serve { core }, Answer::Renew)
            }
            (Fault::TallyWritebackAsOwn, Step::Writeback { core, .. }, Answer::Writeback) => {
                taken_for(Step::Serve { core }, Answer::Own)
            }
            (Fault::TallyRecallAsAsk, _, Answer::Recall)
            | (Fault::TallyRefusalAsAsk, _, Answer::Refused(20))
            | (Fault::TallyVictimAsAsk, _, Answer::Victim { .. })
            | (Fault::Tally31AsAsk, _, Answer::Refused(31)) => taken_for(step, Answer::Ask),
            (Fault::TallySwapsCommits, _, Answer::Commit(Commit::Load { core, line, ts, data })) => {
                taken_for(step, Answer::Commit(Commit::Store { core, line, ts, data }))
            }
            (Fault::TallySwapsCommits, _, Answer::Commit(Commit::Store { core, line, ts, data })) => {
                taken_for(step, Answer::Commit(Commit::Load { core, line, ts, data }))
            }
            _ => record,
        }
    }

    /// Whether these sizes are taken although one of them lies outside its limits.
    pub fn takes_sizes(self, sizes: Sizes) -> bool {
        let (taken, inside) = match self {
            Fault::LeaseAboveTaken => (sizes.lease > MAX_LEASE, Sizes { lease: 1, ..sizes }),
            Fault::WidthAboveTaken => (sizes.width as usize == MAX_WIDTH + 1, Sizes { width: 1, ..sizes }),
            Fault::ZeroLinesTaken => (sizes.lines == 0, Sizes { lines: 1, cap: 1, ..sizes }),
            Fault::ZeroCapTaken => (sizes.cap == 0, Sizes { cap: 1, ..sizes }),
            Fault::CapAboveTaken => (sizes.cap > sizes.lines, Sizes { cap: 1, ..sizes }),
            _ => return false,
        };
        taken && inside.inside_limits()
    }

    /// Whether a step line of a journal of this form is passed over, place and all.
    pub fn passes_over(self, form: Form, line: &[u8]) -> bool {
        match self {
            Fault::UnknownStepSkipped => unknown_kind(form, line).is_some(),
            Fault::LaterOpeningPassedOver => journal::opening(line).is_ok(),
            _ => false,
        }
    }

    /// What a reader with this fault reads in a first line.
    pub fn opening(self, line: &[u8]) -> Result<(Form, Sizes), u32> {
        let (form, sizes) = journal::opening(&self.opens_as(line))?;
        Ok(match (self, form) {
            (Fault::Form2AsForm1, _) => (Form::One, sizes),
            (Fault::Form1AsForm2, _) => (Form::Two, sizes),
            (Fault::CapInForm1, _) if line.starts_with(Form::One.start().as_bytes()) => (Form::One, sizes),
            (Fault::CapPassedOver, _) => (form, Sizes { cap: sizes.lines, ..sizes }),
            (Fault::Form1WithCap1, Form::One) => (form, Sizes { cap: 1, ..sizes }),
            _ => (form, sizes),
        })
    }

    /// The line that a reader with this fault takes a first line for.
    fn opens_as(self, line: &[u8]) -> Cow<'_, [u8]> {
        let text = String::from_utf8_lossy(line);
        let (before, cap) = text.split_once(" cap=").unwrap_or((&text, ""));
        let lines = text.split(' ').find_map(|word| word.strip_prefix("lines=")).unwrap_or("");
        let too_great = cap.bytes().all(|byte| byte.is_ascii_digit()) && cap.parse::<u32>().is_err();
        let with_cap = |from: Form, cap: &str| match before.strip_prefix(from.start()) {
            Some(keys) => Cow::Owned(format!("{}{keys} cap={cap}", Form::Two.start()).into_bytes()),
            None => Cow::Borrowed(line),
        };
        match self {
            Fault::CapInForm1 if text.contains(" cap=") => with_cap(Form::One, cap),
            Fault::NoCapInForm2 if !text.contains(" cap=") => with_cap(Form::Two, lines),
            Fault::CapPastGreatest if too_great && !cap.is_empty() => with_cap(Form::Two, lines),
            _ => Cow::Borrowed(line),
        }
    }

    /// What a reader with this fault reads in a step line of a journal of this form.
    pub fn step(self, form: Form, line: &[u8]) -> Result<Step, u32> {
        let line = self.reads_as(line);
        let takes = match self {
            Fault::EvictInForm2 => "evict",
            Fault::DropInForm1 => "drop",
            Fault::WritebackInForm1 => "writeback",
            Fault::VictimInForm1 => "victim",
            _ => "",
        };
        let form = match unknown_kind(form, &line) {
            Some(kind) if kind == takes.as_bytes() => form.other(),
            _ => form,
        };
        journal::step(form, &line)
    }

    /// The line that a reader with this fault takes a step line for.
    fn reads_as(self, line: &[u8]) -> Cow<'_, [u8]> {
        let words = |change: &dyn Fn(&mut Vec<u8>)| {
            let changed = line.split(|&byte| byte == b' ').map(|word| {
                let mut word = word.to_vec();
                change(&mut word);
                word
            });
            Cow::Owned(changed.collect::<Vec<_>>().join(&b' '))
        };
        match self {
            Fault::TrailingBlankTaken => Cow::Borrowed(line.strip_suffix(b" ").unwrap_or(line)),
            Fault::TabSkipped => words(&|word| word.retain(|&byte| byte != b'\t')),
            Fault::EmptyNumberAs0 => words(&|word| {
                if word.ends_with(b"=") && word != b"data=" {
                    word.push(b'0');
                }
            }),
            Fault::NumberUpToLetter => words(&|word| {
                let start = word.iter().position(|&byte| byte == b'=').map_or(0, |at| at + 1);
                let digits = word[start..].iter().take_while(|byte| byte.is_ascii_digit()).count();
                if digits > 0 && !word.starts_with(b"data=") {
                    word.truncate(start + digits);
                }
            }),
            Fault::EmptyDataTaken => words(&|word| {
                if word == b"data=" {
                    word.extend_from_slice(b"00");
                }
            }),
            Fault::OddDataCut => words(&|word| {
                if word.starts_with(b"data=") && word.len() % 2 == 0 {
                    word.pop();
                }
            }),
            _ => Cow::Borrowed(line),
        }
    }

    /// The step that is made in the place of a step.
    fn made_as(self, step: Step) -> Step {
        match (self, step) {
            (Fault::DropAsEvict, Step::Drop { core, line })
            | (Fault::WritebackAsEvict, Step::Writeback { core, line }) => Step::Evict { core, line },
            _ => step,
        }
    }

    /// Whether this fault skips a step of this kind.
    fn skips(self, step: &Step) -> bool {
        self.name().strip_prefix("skip-") == Some(kind_name(step))
    }

    /// Whether this fault lets a step of this kind do nothing.
    fn idles(self, step: &Step) -> bool {
        self.name().strip_prefix("idle-") == Some(kind_name(step))
    }
}

/// A machine with a fault, or with none.
pub struct Faulty {
    pub machine: Machine,
    fault: Fault,
    grants: u32,
    /// For each core, by how many a fault miscounts its copies.
    miscounted: [u32; MAX_CORES],
    /// For each core and line, whether a fault makes it dirty when it is owned again.
    still_dirty: [[bool; MAX_LINES]; MAX_CORES],
}

impl Faulty {
    pub fn new(machine: Machine, fault: Fault) -> Faulty {
        let still_dirty = [[false; MAX_LINES]; MAX_CORES];
        Faulty { machine, fault, grants: 0, miscounted: [0; MAX_CORES], still_dirty }
    }

    /// One step. Nothing comes back if the fault skips it.
    pub fn step(&mut self, step: &Step) -> Option<Answer> {
        let step = &self.fault.made_as(*step);
        if self.fault == Fault::None {
            return Some(self.machine.step(step));
        }
        if self.fault.skips(step) {
            return None;
        }
        let before = self.machine.clone();
        let answer = self.machine.step(step);
        if self.fault.idles(step) {
            self.machine = before;
            return Some(answer);
        }
        Some(self.bend(step, &before, answer))
    }

    /// Bends the outcome of a right step.
    fn bend(&mut self, step: &Step, before: &Machine, answer: Answer) -> Answer {
        match self.fault {
            Fault::OwnerReadLeavesRts => self.owner_read_leaves_rts(step, before, answer),
            Fault::CleanLoadLeavesLts => self.clean_load_leaves_lts(step, before, answer),
            Fault::StoreAtRts
            | Fault::DirtyStorePastRts
            | Fault::SlotStoresPastRts
            | Fault::DirtyStoreBeforeLts
            | Fault::DirtyStoreBeforeSts
            | Fault::DirtyStoreAtWts => self.stores_at(step, before, answer),
            Fault::DirtyStore27 | Fault::SlotStore27 => self.dirty_store_27(step, before, answer),
            Fault::DirtyKeptByDowngrade | Fault::DirtyKeptByEviction => self.dirty_kept(step, before, answer),
            Fault::DirtyWhenOwned => self.dirty_when_owned(step, before, answer),
            Fault::Store27LeftOut => self.store_27_left_out(step, before, answer),
            Fault::FenceOfEveryCore
            | Fault::FenceToSts
            | Fault::SlotFenceLeavesLts
            | Fault::SlotFence20
            | Fault::FenceMovesRequest
            | Fault::FenceCleans
            | Fault::FenceDropsShared => self.other_fence(step, before, answer),
            Fault::StoreFences | Fault::AdvanceFences => self.fences_after(step, answer),
            Fault::LoadFences => self.load_fences(step, before, answer),
            Fault::RenewalRevives => self.renewal_revives(step, before, answer),
            Fault::AlwaysAsks => self.always_asks(step, before, answer),
            Fault::ServeMovesNothing => self.serve_moves_nothing(step, before, answer, 0),
            Fault::LaterServesMoveNothing => self.serve_moves_nothing(step, before, answer, 1),
            Fault::MovesNothing => self.moves_nothing(step, before, answer),
            Fault::Early20 => self.early_20(step, before, answer),
            Fault::Early22 => {
                let late = matches!(step, Step::Receive { .. }) && answer == Answer::Drop;
                self.refuse_if(late, before, 22, answer)
            }
            Fault::Early27Store | Fault::Early27Advance | Fault::Early27Serve => {
                self.early_27(step, before, answer)
            }
            Fault::Early27Owned => self.early_27_owned(step, before, answer),
            Fault::Early27StoreServed => self.early_27_store_served(step, before, answer),
            Fault::RefusesAll => self.refuse_if(true, before, 20, answer),
            Fault::ConstantCommit => self.constant_commit(step, answer),
            Fault::ShortLease => self.short_lease(step, before, answer),
            Fault::TakeKeepsRecall => self.take_keeps_recall(step, before, answer),
            Fault::LoadWeakensFlush => self.load_weakens_flush(step, before, answer),
            Fault::StoreLeavesDowngrade => self.store_leaves_downgrade(step, before, answer),
            Fault::StoreClearsRecall => self.clears_recall(
                matches!(answer, Answer::Commit(Commit::Store { .. })),
                step.line(),
                answer,
            ),
            Fault::LoadClearsRecall => {
                self.clears_recall(matches!(answer, Answer::Commit(Commit::Load { .. })), step.line(), answer)
            }
            Fault::ReceiveClearsRecall => {
                let line = Self::received(step, before).map(|(_, line)| line);
                self.clears_recall(answer == Answer::Own, line, answer)
            }
            Fault::StretchAtDowngrade => self.stretch_at_downgrade(step, answer),
            Fault::AskOverAnswer => self.ask_over_answer(step, before, answer),
            Fault::RenewalLeavesRts => self.renewal_leaves_rts(step, before, answer),
            Fault::RenewalByLease => self.renewal_by_lease(step, before, answer),
            Fault::SharedEvictDropsWriteback => self.shared_evict(step, before, answer, false),
            Fault::SharedEvictWritesBack => self.shared_evict(step, before, answer, true),
            Fault::OwnLineGranted => self.own_line_granted(step, before, answer),
            Fault::AnswersAtCore0 => {
                self.answers_at(step, before, answer, |machine, _| machine.answer_place(0))
            }
            Fault::AnswersOverWritebacks => self.answers_at(step, before, answer, Machine::writeback_place),
            Fault::WritebacksAtLine0 => self.writebacks_at_line_0(step, before, answer),
            Fault::Early30 | Fault::Refusal26For30 => self.other_number(step, answer),
            Fault::Early30Evict => {
                let owned = matches!(Self::evicted(step, before), Some((_, _, PrivateCopy::Owned { .. })));
                self.refuse_if(owned && answer == Answer::Evict, before, 30, answer)
            }
            Fault::Refusal30LosesCopy => self.refusal_30_loses_copy(step, answer),
            Fault::DropTakesOwned | Fault::WritebackTakesShared => {
                self.takes_other_state(step, before, answer)
            }
            Fault::WritebackLosesRts
            | Fault::WritebackLosesWts
            | Fault::WritebackLosesBytes
            | Fault::WritebackLeavesCopy
            | Fault::WritebackLeavesShared
            | Fault::WritebackTakenAtOnce => self.bad_writeback(step, before, answer),
            Fault::WritebackClearsRecall => {
                self.clears_recall(answer == Answer::Writeback, step.line(), answer)
            }
            Fault::DropAnswersEvict | Fault::WritebackAnswersEvict | Fault::EvictAnswersByCopy => {
                self.other_answer(step, before, answer)
            }
            Fault::HoldsOneMore
            | Fault::Early31
            | Fault::NoRoomForShareOnly
            | Fault::NoRoomForOwnOnly
            | Fault::HeldLine31
            | Fault::Renewal31
            | Fault::CountsAllCores
            | Fault::CountsCore0
            | Fault::CountsOwnedOnly
            | Fault::CountsSharedOnly
            | Fault::DropMakesNoRoom
            | Fault::WritebackMakesNoRoom
            | Fault::FlushMakesNoRoom
            | Fault::DowngradeMakesRoom => self.other_room(step, before, answer),
            Fault::Early31Before22 => {
                let full = |core| before.copies_held(core) >= before.state.sizes.cap;
                let full = answer == Answer::Refused(22) && step.core().is_some_and(full);
                self.refuse_if(full, before, 31, answer)
            }
            Fault::Refusal22For31 => self.refuse_if(answer == Answer::Refused(31), before, 22, answer),
            Fault::Refusal31EmptiesSlot | Fault::Refusal31AsksAgain | Fault::ReceiveMakesRoom => {
                self.refusal_31_changes(step, before, answer)
            }
            Fault::VictimTiesToLarger
            | Fault::VictimTiesToShared
            | Fault::VictimByWts
            | Fault::VictimByLine
            | Fault::VictimLargestRts
            | Fault::VictimByManager
            | Fault::VictimLine0
            | Fault::VictimNotHeld
            | Fault::VictimOfCore0
            | Fault::VictimSkipsOwned
            | Fault::VictimSkipsShared
            | Fault::VictimWithoutCopies
            | Fault::VictimFullOnly => self.other_victim(step, answer),
            Fault::VictimDropsCopy | Fault::VictimTakesTurns => self.victim_changes(step, answer),
            Fault::SwapsHalves
            | Fault::StoresOnePlaceOff
            | Fault::StoresHalfALine
            | Fault::AskStores
            | Fault::Refusal27Stores => self.misstored(step, before, answer),
            Fault::RefusalChangesClock => self.refusal_changes_clock(step, answer),
            Fault::RefusalChangesBytes => self.refusal_changes_bytes(answer),
            Fault::OtherCoreTs => self.other_core_ts(answer),
            _ => answer,
        }
    }

    /// What a store leaves in its copy's place, whatever it prints: the bytes that
    /// its digits spell, but wrong, or where nothing is to be stored.
    fn misstored(&mut self, step: &Step, before: &Machine, answer: Answer) -> Answer {
        let Step::Store { core, line, data } = *step else {
            return answer;
        };
        let hit = match self.fault {
            Fault::AskStores => answer == Answer::Ask,
            Fault::Refusal27Stores => answer == Answer::Refused(27),
            _ => matches!(answer, Answer::Commit(_)),
        };
        if !hit {
            return answer;
        }
        let bytes = data.as_slice();
        let place = self.machine.private_place(core, line);
        let private = &mut self.machine.private;
        private.clone_from(&before.private);
        let places = private[place.start..].iter_mut();
        match self.fault {
            Fault::SwapsHalves => places.zip(bytes).for_each(|(to, byte)| *to = byte.rotate_left(4)),
            Fault::StoresOnePlaceOff => places.skip(1).zip(bytes).for_each(|(to, byte)| *to = *byte),
            Fault::StoresHalfALine => {
                places.zip(&bytes[..bytes.len() / 2]).for_each(|(to, byte)| *to = *byte)
            }
            _ => places.zip(bytes).for_each(|(to, byte)| *to = *byte),
        }
        answer
    }

    /// The copy that a step named, before it.
    fn copy_before(step: &Step, before: &Machine) -> Option<(u32, u32, PrivateCopy)> {
        let (core, line) = (step.core()?, step.line()?);
        let sizes = before.state.sizes;
        (core < sizes.cores && line < sizes.lines).then(|| (core, line, before.copy(core, line)))
    }

    /// What a core to be served has asked for, before the step.
    fn asked_before(step: &Step, before: &Machine) -> Option<(Wish, u32, u32)> {
        let Step::Serve { core } = *step else {
            return None;
        };
        match before.state.cores.get(core as usize)?.slot {
            Slot::Asked { wish, line, lts, .. } => Some((wish, line, lts)),
            _ => None,
        }
    }

    /// Refuses, with nothing changed.
    fn refuse_if(&mut self, refuse: bool, before: &Machine, number: u32, answer: Answer) -> Answer {
        if !refuse {
            return answer;
        }
        self.machine = before.clone();
        Answer::Refused(number)
    }

    fn owner_read_leaves_rts(&mut self, step: &Step, before: &Machine, answer: Answer) -> Answer {
        if let (Step::Load { .. }, Some((core, line, copy))) = (step, Self::copy_before(step, before)) {
            self.machine.set_copy(core, line, copy);
        }
        answer
    }

    fn clean_load_leaves_lts(&mut self, step: &Step, before: &Machine, answer: Answer) -> Answer {
        let Some((core, line, PrivateCopy::Owned { wts, rts, dirty: false })) =
            Self::copy_before(step, before)
        else {
            return answer;
        };
        let Answer::Commit(Commit::Load { data, .. }) = answer else {
            return answer;
        };
        let ts = before.state.cores[core as usize].lts;
        self.machine.state.cores[core as usize].lts = ts;
        self.machine.set_copy(core, line, PrivateCopy::Owned { wts, rts: rts.max(ts), dirty: false });
        Answer::Commit(Commit::Load { core, line, ts, data })
    }

    /// A store that commits at another timestamp.
    fn stores_at(&mut self, step: &Step, before: &Machine, answer: Answer) -> Answer {
        let Some((core, line, PrivateCopy::Owned { wts, rts, dirty })) = Self::copy_before(step, before)
        else {
            return answer;
        };
        let Answer::Commit(Commit::Store { data, .. }) = answer else {
            return answer;
        };
        let Core { lts, sts, slot } = before.state.cores[core as usize];
        let ts = match (self.fault, dirty) {
            (Fault::StoreAtRts, false) => lts.max(sts).max(rts),
            (Fault::SlotStoresPastRts, true) if slot == Slot::Empty => return answer,
            (Fault::DirtyStorePastRts | Fault::SlotStoresPastRts, true) => {
                lts.max(sts).max(rts.saturating_add(1))
            }
            (Fault::DirtyStoreBeforeLts, true) => sts.max(rts),
            (Fault::DirtyStoreBeforeSts, true) => lts.max(rts),
            (Fault::DirtyStoreAtWts, true) => wts,
            _ => return answer,
        };
        self.machine.state.cores[core as usize].sts = ts;
        self.machine.set_copy(core, line, PrivateCopy::Owned { wts: ts, rts: ts, dirty: true });
        Answer::Commit(Commit::Store { core, line, ts, data })
    }

    fn dirty_store_27(&mut self, step: &Step, before: &Machine, answer: Answer) -> Answer {
        let Some((core, _, PrivateCopy::Owned { rts: GREATEST, dirty: true, .. })) =
            Self::copy_before(step, before)
        else {
            return answer;
        };
        let stores = matches!(answer, Answer::Commit(Commit::Store { .. }));
        let in_use = before.state.cores[core as usize].slot != Slot::Empty;
        self.refuse_if(stores && (in_use || self.fault == Fault::DirtyStore27), before, 27, answer)
    }

    /// The store is made as if the line were dirty.
    fn store_27_left_out(&mut self, step: &Step, before: &Machine, answer: Answer) -> Answer {
        let (Step::Store { .. }, Answer::Refused(27)) = (step, answer) else {
            return answer;
        };
        if let Some((core, line, PrivateCopy::Owned { wts, rts, .. })) = Self::copy_before(step, before) {
            self.machine.set_copy(core, line, PrivateCopy::Owned { wts, rts, dirty: true });
            return self.machine.step(step);
        }
        answer
    }

    /// A copy that was dirty when it was owned last is dirty when it is owned again.
    fn dirty_kept(&mut self, step: &Step, before: &Machine, answer: Answer) -> Answer {
        if let Some((core, line)) = self.keeps_dirty(step, before, answer) {
            self.still_dirty[core as usize][line as usize] = true;
        }
        if let (Some((core, line)), Answer::Own) = (Self::received(step, before), answer) {
            if std::mem::take(&mut self.still_dirty[core as usize][line as usize]) {
                return self.dirty_when_owned(step, before, answer);
            }
        }
        answer
    }

    /// The dirty copy that a step leaves owned no more, if this fault keeps it dirty.
    fn keeps_dirty(&self, step: &Step, before: &Machine, answer: Answer) -> Option<(u32, u32)> {
        let (core, line, recall) = match (*step, answer) {
            (Step::Evict { core, line }, Answer::Evict)
            | (Step::Writeback { core, line }, Answer::Writeback) => (core, line, Recall::None),
            (Step::Yield { line }, Answer::Yield) => match before.state.lines[line as usize] {
                Line { holder: Holder::Owned { core }, recall, .. } => (core, line, recall),
                _ => return None,
            },
            _ => return None,
        };
        let dirty = matches!(before.copy(core, line), PrivateCopy::Owned { dirty: true, .. });
        let downgrades = self.fault == Fault::DirtyKeptByDowngrade;
        (dirty && downgrades == (recall == Recall::Downgrade)).then_some((core, line))
    }

    fn dirty_when_owned(&mut self, step: &Step, before: &Machine, answer: Answer) -> Answer {
        let (Some((core, line)), Answer::Own) = (Self::received(step, before), answer) else {
            return answer;
        };
        if let PrivateCopy::Owned { wts, rts, .. } = self.machine.copy(core, line) {
            self.machine.set_copy(core, line, PrivateCopy::Owned { wts, rts, dirty: true });
        }
        answer
    }

    /// A fence that does less than it should, or more.
    fn other_fence(&mut self, step: &Step, before: &Machine, answer: Answer) -> Answer {
        let (Step::Fence { core }, Answer::Commit(Commit::Fence { ts, .. })) = (*step, answer) else {
            return answer;
        };
        let Core { sts, slot, .. } = before.state.cores[core as usize];
        let State { cores, copies, .. } = &mut self.machine.state;
        let copies = copies[core as usize].iter_mut();
        match self.fault {
            Fault::FenceOfEveryCore => cores.iter_mut().for_each(|core| core.lts = core.lts.max(ts)),
            Fault::FenceToSts => {
                cores[core as usize].lts = sts;
                return Answer::Commit(Commit::Fence { core, ts: sts });
            }
            Fault::SlotFenceLeavesLts if slot != Slot::Empty => self.machine = before.clone(),
            Fault::SlotFence20 => return self.refuse_if(slot != Slot::Empty, before, 20, answer),
            Fault::FenceMovesRequest => {
                if let Slot::Asked { lts, .. } = &mut cores[core as usize].slot {
                    *lts = ts;
                }
            }
            Fault::FenceCleans => copies.for_each(|copy| {
                if let PrivateCopy::Owned { dirty, .. } = copy {
                    *dirty = false;
                }
            }),
            Fault::FenceDropsShared => copies.for_each(|copy| {
                if let PrivateCopy::Shared { .. } = copy {
                    *copy = PrivateCopy::None;
                }
            }),
            _ => {}
        }
        answer
    }

    /// A fence, which prints nothing, follows a store or an advance.
    fn fences_after(&mut self, step: &Step, answer: Answer) -> Answer {
        let follows = match self.fault {
            Fault::StoreFences => matches!(answer, Answer::Commit(Commit::Store { .. })),
            _ => answer == Answer::Advance,
        };
        if let (true, Some(core)) = (follows, step.core()) {
            self.machine.step(&Step::Fence { core });
        }
        answer
    }

    /// A fence, which prints nothing, comes before a load that is not refused.
    fn load_fences(&mut self, step: &Step, before: &Machine, answer: Answer) -> Answer {
        let Step::Load { core, .. } = *step else {
            return answer;
        };
        if matches!(answer, Answer::Refused(_)) {
            return answer;
        }
        self.machine = before.clone();
        self.machine.step(&Step::Fence { core });
        let answer = self.machine.step(step);
        self.refuse_if(answer == Answer::Refused(20), before, 20, answer)
    }

    fn renewal_revives(&mut self, step: &Step, before: &Machine, answer: Answer) -> Answer {
        let (Answer::Drop, Step::Receive { core }) = (answer, *step) else {
            return answer;
        };
        if let Slot::Answered { line, wts, rts, .. } = before.state.cores[core as usize].slot {
            self.machine.set_copy(core, line, PrivateCopy::Shared { wts, rts });
        }
        answer
    }

    fn always_asks(&mut self, step: &Step, before: &Machine, answer: Answer) -> Answer {
        let accesses = matches!(step, Step::Load { .. } | Step::Store { .. });
        if accesses && matches!(answer, Answer::Commit(_)) {
            self.machine = before.clone();
            return Answer::Ask;
        }
        answer
    }

    /// Grants after the first `moved` ones move no bytes.
    fn serve_moves_nothing(&mut self, step: &Step, before: &Machine, answer: Answer, moved: u32) -> Answer {
        if matches!(step, Step::Serve { .. }) && matches!(answer, Answer::Share | Answer::Own) {
            if self.grants >= moved {
                self.machine.shared.copy_from_slice(&before.shared);
            }
            self.grants += 1;
        }
        answer
    }

    fn moves_nothing(&mut self, step: &Step, before: &Machine, answer: Answer) -> Answer {
        if !matches!(step, Step::Store { .. }) {
            self.machine.private.copy_from_slice(&before.private);
            self.machine.shared.copy_from_slice(&before.shared);
        }
        answer
    }

    fn early_20(&mut self, step: &Step, before: &Machine, answer: Answer) -> Answer {
        let accesses = matches!(step, Step::Load { .. } | Step::Store { .. });
        let hit = accesses && matches!(answer, Answer::Commit(_));
        let taken = |core: u32| before.state.cores[core as usize].slot != Slot::Empty;
        self.refuse_if(hit && step.core().is_some_and(taken), before, 20, answer)
    }

    fn early_27(&mut self, step: &Step, before: &Machine, answer: Answer) -> Answer {
        let lease = before.state.sizes.lease;
        let sum = match (self.fault, step, answer) {
            (Fault::Early27Store, Step::Store { .. }, Answer::Commit(_)) => {
                match Self::copy_before(step, before) {
                    Some((_, _, PrivateCopy::Owned { rts, dirty: false, .. })) => rts.checked_add(1),
                    _ => None,
                }
            }
            (Fault::Early27Advance, Step::Advance { core, by }, Answer::Advance) => {
                before.state.cores[*core as usize].lts.checked_add(*by)
            }
            (Fault::Early27Serve, Step::Serve { .. }, Answer::Share | Answer::Renew) => {
                Self::asked_before(step, before).and_then(|(_, _, lts)| lts.checked_add(lease))
            }
            _ => None,
        };
        self.refuse_if(sum == Some(GREATEST), before, 27, answer)
    }

    fn early_27_owned(&mut self, step: &Step, before: &Machine, answer: Answer) -> Answer {
        let lease = before.state.sizes.lease;
        let passes = Self::asked_before(step, before)
            .is_some_and(|(wish, _, lts)| wish == Wish::Load && lts.checked_add(lease).is_none());
        self.refuse_if(passes && answer == Answer::Recall, before, 27, answer)
    }

    fn early_27_store_served(&mut self, step: &Step, before: &Machine, answer: Answer) -> Answer {
        let lease = before.state.sizes.lease;
        let passes = Self::asked_before(step, before)
            .is_some_and(|(wish, _, lts)| wish == Wish::Store && lts.checked_add(lease).is_none());
        self.refuse_if(passes && answer == Answer::Own, before, 27, answer)
    }

    /// The access is made as if the slot were empty.
    fn ask_over_answer(&mut self, step: &Step, before: &Machine, answer: Answer) -> Answer {
        let (Answer::Refused(20), Some(core)) = (answer, step.core()) else {
            return answer;
        };
        let core = core as usize;
        if !matches!(before.state.cores[core].slot, Slot::Answered { .. }) {
            return answer;
        }
        self.machine.state.cores[core].slot = Slot::Empty;
        self.machine.step(step)
    }

    /// The line of an answer that a core receives.
    fn received(step: &Step, before: &Machine) -> Option<(u32, u32)> {
        let Step::Receive { core } = *step else {
            return None;
        };
        match before.state.cores.get(core as usize)?.slot {
            Slot::Answered { line, .. } => Some((core, line)),
            _ => None,
        }
    }

    fn renewal_leaves_rts(&mut self, step: &Step, before: &Machine, answer: Answer) -> Answer {
        if let (Some((core, line)), Answer::Renew) = (Self::received(step, before), answer) {
            self.machine.set_copy(core, line, before.copy(core, line));
        }
        answer
    }

    fn renewal_by_lease(&mut self, step: &Step, before: &Machine, answer: Answer) -> Answer {
        let (Some((_, _, lts)), Some(core)) = (Self::asked_before(step, before), step.core()) else {
            return answer;
        };
        if let Slot::Answered { grant: Grant::Renew, rts, .. } =
            &mut self.machine.state.cores[core as usize].slot
        {
            *rts = lts + before.state.sizes.lease;
        }
        answer
    }

    /// The eviction of a shared copy drops the writeback in flight, or makes one.
    fn shared_evict(&mut self, step: &Step, before: &Machine, answer: Answer, makes: bool) -> Answer {
        let Some((core, line, PrivateCopy::Shared { wts, rts })) = Self::copy_before(step, before) else {
            return answer;
        };
        if matches!(answer, Answer::Evict | Answer::Drop) {
            self.machine.state.lines[line as usize].writeback = makes.then_some(Writeback { wts, rts });
            let to = before.writeback_place(line);
            self.machine.shared[to].copy_from_slice(&before.private[before.private_place(core, line)]);
        }
        answer
    }

    fn own_line_granted(&mut self, step: &Step, before: &Machine, answer: Answer) -> Answer {
        let (Some((wish, line, lts)), Some(core)) = (Self::asked_before(step, before), step.core()) else {
            return answer;
        };
        if before.state.lines[line as usize].holder != (Holder::Owned { core }) {
            return answer;
        }
        let grant = if wish == Wish::Load { Grant::Share } else { Grant::Own };
        self.machine = before.clone();
        self.machine.state.cores[core as usize].slot = Slot::Answered { grant, line, wts: 0, rts: lts };
        if wish == Wish::Load {
            Answer::Share
        } else {
            Answer::Own
        }
    }

    /// The bytes of an answer lie at another place, where the core also finds them.
    fn answers_at(
        &mut self,
        step: &Step,
        before: &Machine,
        answer: Answer,
        place: fn(&Machine, u32) -> Range<usize>,
    ) -> Answer {
        if !matches!(answer, Answer::Share | Answer::Own) {
            return answer;
        }
        if let Step::Serve { core } = *step {
            let bytes = self.machine.shared[before.answer_place(core)].to_vec();
            self.machine.shared.copy_from_slice(&before.shared);
            self.machine.shared[place(before, core)].copy_from_slice(&bytes);
        } else if let Some((core, line)) = Self::received(step, before) {
            let to = before.private_place(core, line);
            self.machine.private[to].copy_from_slice(&before.shared[place(before, core)]);
        }
        answer
    }

    fn writebacks_at_line_0(&mut self, step: &Step, before: &Machine, answer: Answer) -> Answer {
        let owned = matches!(Self::copy_before(step, before), Some((_, _, PrivateCopy::Owned { .. })));
        let place = before.writeback_place(0);
        match (*step, answer) {
            (Step::Evict { line, .. }, Answer::Evict) | (Step::Writeback { line, .. }, Answer::Writeback)
                if owned =>
            {
                self.write_back_at(place, line, before)
            }
            (Step::Yield { line }, Answer::Yield) => self.write_back_at(place, line, before),
            (Step::Take { line }, Answer::Take) => {
                let to = before.manager_place(line);
                self.machine.shared[to].copy_from_slice(&before.shared[place]);
            }
            _ => {}
        }
        answer
    }

    /// Moves the bytes of a line's writeback that was just made.
    fn write_back_at(&mut self, place: Range<usize>, line: u32, before: &Machine) {
        let bytes = self.machine.shared[before.writeback_place(line)].to_vec();
        self.machine.shared.copy_from_slice(&before.shared);
        self.machine.shared[place].copy_from_slice(&bytes);
    }

    fn constant_commit(&mut self, step: &Step, answer: Answer) -> Answer {
        let width = self.machine.state.sizes.width as usize;
        match step {
            Step::Load { .. } | Step::Store { .. } | Step::Fence { .. } => {
                let data = Bytes::new(&[0; MAX_WIDTH][..width]);
                Answer::Commit(Commit::Load { core: 0, line: 0, ts: 0, data })
            }
            _ => answer,
        }
    }

    fn short_lease(&mut self, step: &Step, before: &Machine, answer: Answer) -> Answer {
        if let (Some((_, line, _)), Answer::Share | Answer::Renew) =
            (Self::asked_before(step, before), answer)
        {
            self.machine.state.lines[line as usize].holder = before.state.lines[line as usize].holder;
        }
        answer
    }

    fn take_keeps_recall(&mut self, step: &Step, before: &Machine, answer: Answer) -> Answer {
        if let (Step::Take { line }, Answer::Take) = (step, answer) {
            let line = *line as usize;
            self.machine.state.lines[line].recall = before.state.lines[line].recall;
        }
        answer
    }

    fn load_weakens_flush(&mut self, step: &Step, before: &Machine, answer: Answer) -> Answer {
        if let (Some((Wish::Load, line, _)), Answer::Recall) = (Self::asked_before(step, before), answer) {
            self.machine.state.lines[line as usize].recall = Recall::Downgrade;
        }
        answer
    }

    fn store_leaves_downgrade(&mut self, step: &Step, before: &Machine, answer: Answer) -> Answer {
        if let (Some((Wish::Store, line, _)), Answer::Recall) = (Self::asked_before(step, before), answer) {
            let standing = before.state.lines[line as usize].recall;
            if standing == Recall::Downgrade {
                self.machine.state.lines[line as usize].recall = standing;
            }
        }
        answer
    }

    /// The step ends the recall of its line, if it has one.
    fn clears_recall(&mut self, clears: bool, line: Option<u32>, answer: Answer) -> Answer {
        if let (true, Some(line)) = (clears, line) {
            self.machine.state.lines[line as usize].recall = Recall::None;
        }
        answer
    }

    /// Every shared copy of the manager's version gets the manager's new rts.
    fn stretch_at_downgrade(&mut self, step: &Step, answer: Answer) -> Answer {
        let (Step::Serve { core }, Answer::Share) = (step, answer) else {
            return answer;
        };
        let Slot::Answered { line, wts, rts, .. } = self.machine.state.cores[*core as usize].slot else {
            return answer;
        };
        for other in 0..self.machine.state.sizes.cores {
            if matches!(self.machine.copy(other, line), PrivateCopy::Shared { wts: w, .. } if w == wts) {
                self.machine.set_copy(other, line, PrivateCopy::Shared { wts, rts });
            }
        }
        answer
    }

    /// The copy that an evict, drop or writeback named, before it.
    fn evicted(step: &Step, before: &Machine) -> Option<(u32, u32, PrivateCopy)> {
        let evicts = matches!(step, Step::Evict { .. } | Step::Drop { .. } | Step::Writeback { .. });
        Self::copy_before(step, before).filter(|_| evicts)
    }

    /// 30 in the place of 26, or the other way round; evict keeps its own.
    fn other_number(&self, step: &Step, answer: Answer) -> Answer {
        let evict = matches!(step, Step::Evict { .. });
        match (self.fault, answer) {
            (Fault::Early30, Answer::Refused(26)) if !evict => Answer::Refused(30),
            (Fault::Refusal26For30, Answer::Refused(30)) => Answer::Refused(26),
            _ => answer,
        }
    }

    fn refusal_30_loses_copy(&mut self, step: &Step, answer: Answer) -> Answer {
        if let (Answer::Refused(30), Some(core), Some(line)) = (answer, step.core(), step.line()) {
            self.machine.set_copy(core, line, PrivateCopy::None);
        }
        answer
    }

    /// A drop of an owned copy just forgets it; a writeback of a shared one writes
    /// it back.
    fn takes_other_state(&mut self, step: &Step, before: &Machine, answer: Answer) -> Answer {
        let (Some((core, line, copy)), Answer::Refused(30)) = (Self::evicted(step, before), answer) else {
            return answer;
        };
        match (self.fault, copy) {
            (Fault::DropTakesOwned, PrivateCopy::Owned { .. }) => {
                self.machine.set_copy(core, line, PrivateCopy::None);
                Answer::Drop
            }
            (Fault::WritebackTakesShared, PrivateCopy::Shared { wts, rts }) => {
                self.machine.set_copy(core, line, PrivateCopy::Owned { wts, rts, dirty: false });
                self.machine.step(step)
            }
            _ => answer,
        }
    }

    /// A writeback that loses a part of what it brings, leaves a copy, or is taken
    /// at once.
    fn bad_writeback(&mut self, step: &Step, before: &Machine, answer: Answer) -> Answer {
        let (Some((core, line, PrivateCopy::Owned { wts, rts, dirty })), Answer::Writeback) =
            (Self::evicted(step, before), answer)
        else {
            return answer;
        };
        let in_flight = &mut self.machine.state.lines[line as usize].writeback;
        match self.fault {
            Fault::WritebackLosesRts => *in_flight = Some(Writeback { wts, rts: wts }),
            Fault::WritebackLosesWts => *in_flight = Some(Writeback { wts: 0, rts }),
            Fault::WritebackLosesBytes => self.machine.shared.copy_from_slice(&before.shared),
            Fault::WritebackLeavesCopy => {
                self.machine.set_copy(core, line, PrivateCopy::Owned { wts, rts, dirty })
            }
            Fault::WritebackLeavesShared => {
                self.machine.set_copy(core, line, PrivateCopy::Shared { wts, rts })
            }
            _ => drop(self.machine.step(&Step::Take { line })),
        }
        answer
    }

    /// The right step under another name.
    fn other_answer(&self, step: &Step, before: &Machine, answer: Answer) -> Answer {
        let Some((_, _, copy)) = Self::evicted(step, before) else {
            return answer;
        };
        let owned = matches!(copy, PrivateCopy::Owned { .. });
        match (self.fault, answer) {
            (Fault::DropAnswersEvict, Answer::Drop) => Answer::Evict,
            (Fault::WritebackAnswersEvict, Answer::Writeback) => Answer::Evict,
            (Fault::EvictAnswersByCopy, Answer::Evict) if owned => Answer::Writeback,
            (Fault::EvictAnswersByCopy, Answer::Evict) => Answer::Drop,
            _ => answer,
        }
    }

    /// A receive that counts the copies in another way, or needs room for more or
    /// for less than it should.
    fn other_room(&mut self, step: &Step, before: &Machine, answer: Answer) -> Answer {
        self.miscount(step, before, answer);
        let Some((core, line)) = Self::received(step, before) else {
            return answer;
        };
        let Slot::Answered { grant, .. } = before.state.cores[core as usize].slot else {
            return answer;
        };
        let (cap, count) = (before.state.sizes.cap, self.counted(core, before));
        let one_more = grant != Grant::Renew && before.copy(core, line) == PrivateCopy::None;
        let refused = match self.fault {
            Fault::HoldsOneMore => one_more && count > cap,
            Fault::Early31 => one_more && count + 1 >= cap,
            Fault::NoRoomForShareOnly => one_more && count >= cap && grant == Grant::Share,
            Fault::NoRoomForOwnOnly => one_more && count >= cap && grant == Grant::Own,
            Fault::HeldLine31 => count >= cap && grant != Grant::Renew,
            Fault::Renewal31 => count >= cap && (one_more || grant == Grant::Renew),
            _ => one_more && count >= cap,
        };
        if refused {
            return self.refuse_if(true, before, 31, answer);
        }
        self.machine = before.clone();
        self.machine.state.sizes.cap = before.state.sizes.lines;
        let received = self.machine.step(step);
        self.machine.state.sizes.cap = cap;
        received
    }

    /// The copies of a core that are counted for 31.
    fn counted(&self, core: u32, before: &Machine) -> u32 {
        let held = before.copies_held(core);
        let owned = before.copies(core).iter().filter(|copy| matches!(copy, PrivateCopy::Owned { .. }));
        let owned = owned.count() as u32;
        let miscounted = self.miscounted[core as usize];
        match self.fault {
            Fault::CountsAllCores => (0..before.state.sizes.cores).map(|core| before.copies_held(core)).sum(),
            Fault::CountsCore0 => before.copies_held(0),
            Fault::CountsOwnedOnly => owned,
            Fault::CountsSharedOnly => held - owned,
            Fault::DowngradeMakesRoom => held.saturating_sub(miscounted),
            _ => held + miscounted,
        }
    }

    /// Notes a copy that goes on counting, or that counts no more.
    fn miscount(&mut self, step: &Step, before: &Machine, answer: Answer) {
        let flushes = self.fault == Fault::FlushMakesNoRoom;
        let core = match (self.fault, *step, answer) {
            (Fault::DropMakesNoRoom, Step::Drop { core, .. }, Answer::Drop)
            | (Fault::WritebackMakesNoRoom, Step::Writeback { core, .. }, Answer::Writeback) => Some(core),
            (Fault::FlushMakesNoRoom | Fault::DowngradeMakesRoom, Step::Yield { line }, Answer::Yield) => {
                let manager = before.state.lines[line as usize];
                match manager.holder {
                    Holder::Owned { core } if flushes == (manager.recall == Recall::Flush) => Some(core),
                    _ => None,
                }
            }
            _ => None,
        };
        if let Some(core) = core {
            self.miscounted[core as usize] += 1;
        }
    }

    /// A receive that is refused with 31 changes its slot, or makes room itself.
    fn refusal_31_changes(&mut self, step: &Step, before: &Machine, answer: Answer) -> Answer {
        let (Some((core, line)), Answer::Refused(31)) = (Self::received(step, before), answer) else {
            return answer;
        };
        let clocks = &mut self.machine.state.cores[core as usize];
        match (self.fault, clocks.slot) {
            (Fault::Refusal31AsksAgain, Slot::Answered { grant, .. }) => {
                let wish = if grant == Grant::Own { Wish::Store } else { Wish::Load };
                clocks.slot = Slot::Asked { wish, line, lts: clocks.lts, wts: None };
            }
            (Fault::ReceiveMakesRoom, _) => {
                if let Some(line) = before.victim(core) {
                    self.machine.step(&Step::Evict { core, line });
                    return self.machine.step(step);
                }
            }
            _ => clocks.slot = Slot::Empty,
        }
        answer
    }

    /// Another line is the victim, or none.
    fn other_victim(&self, step: &Step, answer: Answer) -> Answer {
        let (Step::Victim { core }, Answer::Victim { .. } | Answer::Refused(26)) = (*step, answer) else {
            return answer;
        };
        let core = if self.fault == Fault::VictimOfCore0 { 0 } else { core };
        let candidates = self.machine.copies(core).iter().copied().zip(0..);
        let candidates = candidates.filter(|(copy, _)| self.may_be_victim(core, *copy));
        let chosen = candidates.min_by_key(|(copy, line)| self.victim_rank(*copy, *line));
        match (self.fault, chosen) {
            (Fault::VictimLine0, Some(_)) | (Fault::VictimWithoutCopies, None) => Answer::Victim { line: 0 },
            (_, Some((_, line))) => Answer::Victim { line },
            (_, None) => Answer::Refused(26),
        }
    }

    /// Whether a core's copy can be the victim.
    fn may_be_victim(&self, core: u32, copy: PrivateCopy) -> bool {
        let held = self.machine.copies_held(core);
        match (self.fault, copy) {
            (Fault::VictimNotHeld, PrivateCopy::None) => held > 0,
            (_, PrivateCopy::None) => false,
            (Fault::VictimSkipsOwned, _) => !matches!(copy, PrivateCopy::Owned { .. }),
            (Fault::VictimSkipsShared, _) => !matches!(copy, PrivateCopy::Shared { .. }),
            (Fault::VictimFullOnly, _) => held >= self.machine.state.sizes.cap,
            _ => true,
        }
    }

    /// What the victim has the smallest of.
    fn victim_rank(&self, copy: PrivateCopy, line: u32) -> (u32, bool, u32) {
        let (wts, rts, owned) = match copy {
            PrivateCopy::None => (0, 0, false),
            PrivateCopy::Shared { wts, rts } => (wts, rts, false),
            PrivateCopy::Owned { wts, rts, .. } => (wts, rts, true),
        };
        match (self.fault, self.machine.state.lines[line as usize].holder) {
            (Fault::VictimTiesToLarger, _) => (rts, false, GREATEST - line),
            (Fault::VictimTiesToShared, _) => (rts, owned, line),
            (Fault::VictimByWts, _) => (wts, false, line),
            (Fault::VictimByLine, _) => (0, false, line),
            (Fault::VictimLargestRts, _) => (GREATEST - rts, false, line),
            (Fault::VictimByManager, Holder::Shared { rts, .. }) => (rts, false, line),
            _ => (rts, false, line),
        }
    }

    /// A victim that does not leave the machine as it was.
    fn victim_changes(&mut self, step: &Step, answer: Answer) -> Answer {
        let (Step::Victim { core }, Answer::Victim { line }) = (*step, answer) else {
            return answer;
        };
        match (self.fault, self.machine.copy(core, line)) {
            (Fault::VictimDropsCopy, _) => drop(self.machine.step(&Step::Evict { core, line })),
            (_, PrivateCopy::Shared { wts, .. }) => {
                self.machine.set_copy(core, line, PrivateCopy::Shared { wts, rts: GREATEST });
            }
            _ => {}
        }
        answer
    }

    fn refusal_changes_clock(&mut self, step: &Step, answer: Answer) -> Answer {
        if matches!(answer, Answer::Refused(_)) {
            let core = step.core().unwrap_or(0) as usize % MAX_CORES;
            let lts = &mut self.machine.state.cores[core].lts;
            *lts = lts.saturating_add(1);
        }
        answer
    }

    fn refusal_changes_bytes(&mut self, answer: Answer) -> Answer {
        if matches!(answer, Answer::Refused(_)) {
            self.machine.private[0] ^= 1;
        }
        answer
    }

    fn other_core_ts(&mut self, answer: Answer) -> Answer {
        let ts = self.machine.state.cores[0].lts;
        match answer {
            Answer::Commit(Commit::Load { core, line, data, .. }) => {
                Answer::Commit(Commit::Load { core, line, ts, data })
            }
            Answer::Commit(Commit::Fence { core, .. }) => Answer::Commit(Commit::Fence { core, ts }),
            other => other,
        }
    }
}
