//! The captures under `examples/captures`: the bytes of each, the report on it, and the notes in it. With SENDOSHI_WRITE_CAPTURES set, the
//! test writes the files instead of comparing them.

use reference::event::{BEGIN, LONE_READ};
use reference::history_file::{self, start_record};
use reference::justification::Outcome::{Aborted, Committed};
use reference::log::Log;
use reference::notes::{note_record, notes, without_notes, Note};
use reference::record::{record, records_from};
use reference::report::{counted, report, tallied};
use reference::worked::{h0_marking, marking};
use std::path::PathBuf;
use std::{env, fs};

fn top() -> PathBuf {
    PathBuf::from(env!("CARGO_MANIFEST_DIR")).join("../../examples/captures")
}

/// A folder, its two files (none: absent), its report, and a line for each note of a history that is read, if it has any.
struct Capture {
    name: &'static str,
    history: Option<Vec<u8>>,
    marking: Option<Vec<u8>>,
    report: String,
    notes: Option<String>,
}

/// A readable history, with the four lines of its report.
fn capture(name: &'static str, log: &Log, marking: Option<Vec<u8>>, lines: [&str; 4]) -> Capture {
    let history = history_file::write(&log.store, &log.events);
    Capture { name, history: Some(history), marking, report: lines.join("\n") + "\n", notes: None }
}

/// A history that is refused, with the one line of its report.
fn refused(name: &'static str, history: Option<Vec<u8>>, marking: Option<Vec<u8>>, line: &str) -> Capture {
    Capture { name, history, marking, report: format!("{line}\n"), notes: None }
}

impl Capture {
    /// The same with notes in its history, each before the record of this number behind the head, and with the lines on them.
    fn noted(self, notes: &[(usize, &[u8])], lines: &[&str]) -> Capture {
        let history = self.history.map(|file| with_notes(&file, notes));
        Capture { history, notes: Some(lines.join("\n") + "\n"), ..self }
    }
}

/// A file with notes before some of its records; those before the record behind the last stand at the end.
fn with_notes(file: &[u8], notes: &[(usize, &[u8])]) -> Vec<u8> {
    let (records, _) = records_from(file, 6);
    let before = |at| notes.iter().filter(move |note| note.0 == at).flat_map(|note| note_record(note.1));
    let behind_head = records.iter().enumerate().flat_map(|(at, r)| before(at).chain(file[r.byte..r.next].to_vec()));
    file[..6].iter().copied().chain(behind_head).chain(before(records.len())).collect()
}

/// The lines on the notes of a file that is read: what `examples/notes.c` prints. None where it has none.
fn lines(file: &[u8]) -> Option<String> {
    let line = |note: &Note| {
        let space = if note.bytes.is_empty() { "" } else { " " };
        let shown = note.bytes.iter().map(|&byte| match byte {
            b' '..=b'~' if byte != b'\\' => char::from(byte).to_string(),
            _ => format!("\\x{byte:02x}"),
        });
        format!("after {} events:{space}{}\n", note.events, shown.collect::<String>())
    };
    let lines: String = history_file::read(file).ok().map(|_| notes(file))?.iter().map(line).collect();
    Some(lines).filter(|lines| !lines.is_empty())
}

/// Transactions in each state that the tally tells apart, by each way to be aborted and to be live.
fn all_states() -> Log {
    // T0 commits; T1 is aborted from its read.
    let log = Log::new().begin(0).write(0, 0, 5).begin(1).read_called(1, 0).commit_called(0).aborted(1).committed(0);
    // T2 is aborted from its write, T3 after its commit call, and T4 is withdrawn.
    let log = log.begin(0).write_called(2, 0, 6).begin(1).commit_called(3).aborted(2).aborted(3).begin(0).aborted(4);
    // T5 calls commit; T6 has read what T0 wrote.
    let log =
        log.begin(0).begin(1).write_called(5, 0, 7).read_called(6, 0).write_returned(5).read_returned(6, 5).commit_called(5);
    // T7 is in a read, T8 calls commit, and T9 is in a write.
    log.begin(2).begin(3).begin(4).read_called(7, 0).commit_called(8).write_called(9, 1, 1)
}

/// All but T0 aborted, in the order in which they began.
fn all_states_marking() -> Vec<u8> {
    let places: Vec<_> = (0..10).map(|t| (t, if t == 0 { Committed } else { Aborted })).collect();
    marking(&places, &[(21, 6)])
}

/// T0 reads register 3, which starts with 9, register 31, which starts with the largest value, and register 4, which starts at 0.
fn first_reads(value: u32) -> Log {
    Log::starting(&[(3, 9), (31, u32::MAX)]).begin(0).read(0, 3, value).read(0, 31, u32::MAX).read(0, 4, 0).commit(0)
}

/// T1 reads the start value while T0 is running; T2, which begins after T0 has committed 7, reads that.
fn hidden_start() -> Log {
    Log::starting(&[(3, 9)]).begin(0).begin(1).read(1, 3, 9).write(0, 3, 7).commit(0).begin(0).read(2, 3, 7)
}

/// Edition 2, and the start records that are refused.
fn starts() -> Vec<Capture> {
    let (counts, tally) = ("events 9 transactions 1 reads 3", "committed 1 aborted 0 pending 0 live 0");
    let alone = Some(marking(&[(0, Committed)], &[(2, 0), (4, 0), (6, 0)]));
    let (wrong, fault) = ("marking rule E event 2 transaction 0", "opaque no event 2 cause 1");
    let in_order = marking(&[(1, Aborted), (0, Committed), (2, Aborted)], &[(3, 0), (10, 2)]);
    let file = |edition: u16, records: &[Vec<u8>]| Some([record(1, &edition.to_le_bytes()), records.concat()].concat());
    let begin = record(BEGIN, &[0, 0, 0, 0]);
    let nine = start_record(3, 9);
    vec![
        capture("starts", &first_reads(9), alone.clone(), [counts, tally, "marking accepted", "opaque yes"]),
        capture("starts-torn", &first_reads(0), alone, [counts, tally, wrong, fault]),
        capture(
            "starts-hidden",
            &hidden_start(),
            Some(in_order),
            ["events 11 transactions 3 reads 2", "committed 1 aborted 0 pending 0 live 2", "marking accepted", "opaque yes"],
        ),
        // The first two have what a later question would refuse too.
        refused("start-late", file(2, &[begin, start_record(32, 0)]), None, "history refused 43 byte 14"),
        refused("start-falls", file(2, &[nine.clone(), start_record(2, 0)]), None, "history refused 41 byte 16"),
        refused("start-zero", file(2, &[nine.clone(), start_record(4, 0)]), None, "history refused 42 byte 16"),
        refused("start-in-edition-1", file(1, &[nine]), None, "history refused 4 byte 6"),
    ]
}

/// Register 3 starts with 9; T0 writes 5 to it and calls commit.
fn unanswered() -> Log {
    Log::starting(&[(3, 9)]).begin(0).write(0, 3, 5).commit_called(0)
}

/// T0 begins, T1 writes 5 to register 3, which started with 9, and T0 reads this value.
fn lone_write_beside(value: u32) -> Log {
    Log::starting(&[(3, 9)]).begin(0).lone_write(1, 3, 5).read(0, 3, value)
}

/// T0 reads 9 before T1 writes 5, and this value after it.
fn lone_write_between(value: u32) -> Log {
    Log::starting(&[(3, 9)]).begin(0).read(0, 3, 9).lone_write(1, 3, 5).read(0, 3, value)
}

/// Lone reads.
fn lone_reads() -> Vec<Capture> {
    let alone = Log::starting(&[(3, 9)]).lone_read(0, 3, 9);
    let pending = unanswered().lone_read(1, 3, 5);
    let new_old = pending.clone().lone_read(1, 3, 9);
    // The writer's value at gap 2, where the second lone read would have found it.
    let three = marking(&[(0, Committed), (1, Committed), (2, Committed)], &[(4, 1), (5, 2)]);
    vec![
        capture(
            "lone-read-start",
            &alone,
            Some(marking(&[(0, Committed)], &[(0, 0)])),
            ["events 1 transactions 1 reads 1", "committed 1 aborted 0 pending 0 live 0", "marking accepted", "opaque yes"],
        ),
        capture(
            "lone-pending",
            &pending,
            Some(marking(&[(0, Committed), (1, Committed)], &[(4, 1)])),
            ["events 5 transactions 2 reads 1", "committed 1 aborted 0 pending 1 live 0", "marking accepted", "opaque yes"],
        ),
        capture(
            "lone-new-old",
            &new_old,
            Some(three),
            [
                "events 6 transactions 3 reads 2",
                "committed 2 aborted 0 pending 1 live 0",
                "marking rule E event 5 transaction 2",
                "opaque no event 5 cause 1",
            ],
        ),
    ]
}

/// Lone writes beside a transaction that reads, and both kinds beside transactions in every state.
fn lone_writes() -> Vec<Capture> {
    let writer_first = |points: &[(u32, u16)]| Some(marking(&[(1, Committed), (0, Aborted)], points));
    let reader_first = |points: &[(u32, u16)]| Some(marking(&[(0, Aborted), (1, Committed)], points));
    let (two, tally) = ("events 6 transactions 2 reads 2", "committed 1 aborted 0 pending 0 live 1");
    let wrong = "marking rule E event 2 transaction 0";
    // T0 is a lone read and T2 a lone write; T1 is live, T3's commit waits, and T4 is withdrawn.
    let all = Log::starting(&[(3, 9)]).lone_read(0, 3, 9).begin(0).lone_write(1, 3, 5);
    let all = all.begin(1).commit_called(3).begin(2).aborted(4);
    let by_number = [(0, Committed), (1, Aborted), (2, Committed), (3, Aborted), (4, Aborted)];
    vec![
        capture(
            "lone-write-live",
            &lone_write_beside(5),
            writer_first(&[(3, 1)]),
            ["events 4 transactions 2 reads 1", tally, "marking accepted", "opaque yes"],
        ),
        capture(
            "lone-between",
            &lone_write_between(9),
            reader_first(&[(2, 0), (5, 0)]),
            [two, tally, "marking accepted", "opaque yes"],
        ),
        capture(
            "lone-between-torn",
            &lone_write_between(5),
            writer_first(&[(2, 1), (5, 1)]),
            [two, tally, wrong, "opaque no event 5 cause 1"],
        ),
        capture(
            "lone-tally",
            &all,
            Some(marking(&by_number, &[(0, 0)])),
            ["events 7 transactions 5 reads 1", "committed 2 aborted 1 pending 1 live 1", "marking accepted", "opaque yes"],
        ),
    ]
}

/// Rules that name a lone access.
fn lone_rules() -> Vec<Capture> {
    let old = unanswered().lone_read(1, 3, 9);
    // The writer has committed before a lone read of 9, which stands at the end.
    let at_gap = |gap| Some(marking(&[(0, Committed), (1, Committed)], &[(4, gap)]));
    let (old_counts, old_tally) = ("events 5 transactions 2 reads 1", "committed 1 aborted 0 pending 1 live 0");
    let pair = Log::starting(&[(3, 9)]).lone_write(0, 3, 5).lone_read(0, 3, 5);
    let aborted = marking(&[(0, Aborted), (1, Aborted)], &[(3, 0)]);
    let reversed = marking(&[(1, Committed), (0, Committed)], &[(1, 2)]);
    let (rule_d, rule_e) = ("marking rule D event 4 transaction 1", "marking rule E event 4 transaction 1");
    vec![
        capture("lone-gap-d", &old, at_gap(0), [old_counts, old_tally, rule_d, "opaque yes"]),
        capture("lone-gap-e", &old, at_gap(1), [old_counts, old_tally, rule_e, "opaque yes"]),
        capture(
            "lone-outcome",
            &lone_write_beside(9),
            Some(aborted),
            [
                "events 4 transactions 2 reads 1",
                "committed 1 aborted 0 pending 0 live 1",
                "marking rule A event 1 transaction 1",
                "opaque yes",
            ],
        ),
        capture(
            "lone-real-time",
            &pair,
            Some(reversed),
            [
                "events 2 transactions 2 reads 1",
                "committed 2 aborted 0 pending 0 live 0",
                "marking rule B event 1 transaction 1",
                "opaque yes",
            ],
        ),
    ]
}

/// Files with a lone access that are refused.
fn lone_refused() -> Vec<Capture> {
    let lone_read = record(LONE_READ, &[0, 0, 0, 0, 3, 0, 9, 0, 0, 0]); // T0 on thread 0 reads 9 in register 3
    let file = |edition: u16, records: &[&[u8]]| Some([record(1, &edition.to_le_bytes()), records.concat()].concat());
    let busy = Log::starting(&[(3, 9)]).begin(5).lone_read(5, 3, 9);
    let busy = Some(history_file::write(&busy.store, &busy.events));
    vec![
        refused("lone-busy-thread", busy, None, "history refused 10 byte 24"),
        refused("lone-in-edition-1", file(1, &[&lone_read]), None, "history refused 4 byte 6"),
        refused("lone-start-late", file(2, &[&lone_read, &start_record(3, 9)]), None, "history refused 43 byte 20"),
    ]
}

/// Accesses outside transactions.
fn lone() -> Vec<Capture> {
    lone_reads().into_iter().chain(lone_writes()).chain(lone_rules()).chain(lone_refused()).collect()
}

/// T0 reads a start value, and a lone write comes between that and its commit. Notes stand before, between and behind the start records,
/// between a call and its answer, and at the end.
fn notes_everywhere() -> Capture {
    let sound = Log::starting(&[(3, 9), (31, 1)]).begin(0).read(0, 3, 9).lone_write(1, 3, 5).commit(0);
    let in_turn = marking(&[(0, Committed), (1, Committed)], &[(2, 0)]);
    let (counts, tally) = ("events 6 transactions 2 reads 1", "committed 2 aborted 0 pending 0 live 0");
    capture("notes", &sound, Some(in_turn), [counts, tally, "marking accepted", "opaque yes"]).noted(
        &[
            (0, b"night shift, recorder 2"),
            (1, b"register 31 preset by hand"),
            (2, b""),
            (2, b"display task on"),
            (4, b"slow\xbf \\ ask"),
            (5, &[6, 0, 16, 0, 9, 0, 0, 0]), // like the begin of a tenth transaction
            (8, b"end of shift"),
            (8, b""),
        ],
        &[
            "after 0 events: night shift, recorder 2",
            "after 0 events: register 31 preset by hand",
            "after 0 events:",
            "after 0 events: display task on",
            "after 2 events: slow\\xbf \\x5c ask",
            "after 3 events: \\x06\\x00\\x10\\x00\\x09\\x00\\x00\\x00",
            "after 6 events: end of shift",
            "after 6 events:",
        ],
    )
}

/// Captures that are read with notes in them.
fn notes_passed_over() -> Vec<Capture> {
    let h7_marking = marking(&[(0, Committed), (1, Aborted)], &[(5, 1), (9, 1)]);
    let (h7_counts, h7_tally) = ("events 10 transactions 2 reads 2", "committed 1 aborted 0 pending 0 live 1");
    let (h7_rule, h7_fault) = ("marking rule E event 5 transaction 1", "opaque no event 9 cause 1");
    let alone = Log::starting(&[(3, 9)]).lone_read(0, 3, 9);
    let alone_marking = marking(&[(0, Committed)], &[(0, 0)]);
    let (one, one_tally) = ("events 1 transactions 1 reads 1", "committed 1 aborted 0 pending 0 live 0");
    vec![
        notes_everywhere(),
        capture("notes-torn", &Log::h7(), Some(h7_marking), [h7_counts, h7_tally, h7_rule, h7_fault]).noted(
            &[(0, b"bench 4"), (5, b"T1 waits"), (9, b"this read?"), (9, b"yes")],
            &["after 0 events: bench 4", "after 5 events: T1 waits", "after 9 events: this read?", "after 9 events: yes"],
        ),
        capture("note-before-start", &alone, Some(alone_marking), [one, one_tally, "marking accepted", "opaque yes"])
            .noted(&[(0, b"restarted at 06:12")], &["after 0 events: restarted at 06:12"]),
    ]
}

/// A remark of 65 bytes, one more than a note carries.
const REMARK: &[u8; 65] = b"pump 2 off since 05:40, valve 3 by hand until the day shift is in";

/// Notes that are as long, as short and as late as they may be.
fn notes_at_limits() -> Vec<Capture> {
    let read = Log::new().begin(0).read(0, 3, 0);
    let read_marking = Some(marking(&[(0, Aborted)], &[(2, 0)]));
    let begun = "committed 0 aborted 0 pending 0 live 1";
    // The events of `events-2048`: T0 writes 1,023 times and calls commit.
    let full = (0..1_023).fold(Log::new().begin(0), |log, value| log.write(0, 0, value)).commit_called(0);
    let full_marking = Some(marking(&[(0, Committed)], &[]));
    let (counts, tally) = ("events 2048 transactions 1 reads 0", "committed 0 aborted 0 pending 1 live 0");
    let longest = format!("after 1 events: {}", String::from_utf8_lossy(&REMARK[..64]));
    vec![
        capture("note-64", &read, read_marking, ["events 3 transactions 1 reads 1", begun, "marking accepted", "opaque yes"])
            .noted(&[(1, &REMARK[..64])], &[&longest]),
        capture(
            "note-empty",
            &Log::new().begin(0),
            Some(marking(&[(0, Aborted)], &[])),
            ["events 1 transactions 1 reads 0", begun, "marking accepted", "opaque yes"],
        )
        .noted(&[(0, b""), (1, b""), (1, b"")], &["after 0 events:", "after 1 events:", "after 1 events:"]),
        capture("notes-2048", &full, full_marking, [counts, tally, "marking accepted", "opaque yes"]).noted(
            &[(0, b"long run"), (2_048, b"memory full"), (2_048, &REMARK[..64])],
            &["after 0 events: long run", "after 2048 events: memory full", &longest.replace("after 1 ", "after 2048 ")],
        ),
    ]
}

/// Files with notes that are refused, and a note in a marking.
fn notes_refused() -> Vec<Capture> {
    let (head, begin) = (record(1, &[1, 0]), record(BEGIN, &[0, 0, 0, 0]));
    let file = |records: &[&[u8]]| Some(records.concat());
    let (note, long) = (note_record(b"ok"), note_record(REMARK));
    let late = file(&[&record(1, &[2, 0]), &begin, &note, &start_record(3, 9)]);
    // T0 writes 1,023 times, calls commit, and commits behind a note.
    let full = (0..1_023).fold(Log::new().begin(0), |log, value| log.write(0, 0, value)).commit(0);
    let full = with_notes(&history_file::write(&full.store, &full.events), &[(2_048, b"one more?")]);
    let h0 = [
        "events 10 transactions 2 reads 2",
        "committed 1 aborted 0 pending 0 live 1",
        "marking refused 22 byte 42",
        "opaque yes",
    ];
    vec![
        refused("note-65", file(&[&head, &begin, &note, &long]), None, "history refused 44 byte 20"),
        refused("note-cut", file(&[&head, &note, &begin, &note[..5]]), None, "history refused 2 byte 20"),
        refused("note-first", file(&[&note, &head, &begin]), None, "history refused 3 byte 0"),
        refused("note-start-late", late, None, "history refused 43 byte 20"),
        // Behind a head, a begin, writes of 18 bytes each with their answers, a call and a note.
        refused("notes-2049", Some(full), None, &format!("history refused 6 byte {}", 6 + 8 + 1_023 * 18 + 6 + 13)),
        capture("note-in-marking", &Log::h0(), Some([h0_marking(), note].concat()), h0),
    ]
}

/// Notes in the log.
fn with_remarks() -> Vec<Capture> {
    notes_passed_over().into_iter().chain(notes_at_limits()).chain(notes_refused()).collect()
}

fn captures() -> Vec<Capture> {
    let head = vec![4, 0, 2, 0, 1, 0];
    let gap_2 = marking(&[(1, Aborted), (0, Committed)], &[(5, 0), (9, 2)]);
    let h7_marking = marking(&[(0, Committed), (1, Aborted)], &[(5, 1), (9, 1)]);
    // H7 differs from H0 in a value only.
    let (h0_counts, h0_tally) = ("events 10 transactions 2 reads 2", "committed 1 aborted 0 pending 0 live 1");
    let h0 = |name, marking, marked| capture(name, &Log::h0(), marking, [h0_counts, h0_tally, marked, "opaque yes"]);
    let eleven = (0..11).fold(Log::new(), |log, thread| log.begin(thread));
    let eleven_marking = marking(&(0..11).map(|t| (t, Aborted)).collect::<Vec<_>>(), &[]);
    let cut = [4, 0, 1, 0, 1, 0, 4, 0, 16, 0, 0, 0].to_vec();
    vec![
        h0("h0", Some(h0_marking()), "marking accepted"),
        h0("h0-gap-2", Some(gap_2), "marking rule D event 9 transaction 1"),
        h0("h0-bare", Some(head.clone()), "marking refused 28 byte 6"),
        h0("h0-unmarked", None, "marking refused 21 byte 0"),
        capture(
            "h7",
            &Log::h7(),
            Some(h7_marking),
            [h0_counts, h0_tally, "marking rule E event 5 transaction 1", "opaque no event 9 cause 1"],
        ),
        capture(
            "head-alone",
            &Log::new(),
            Some(head),
            ["events 0 transactions 0 reads 0", "committed 0 aborted 0 pending 0 live 0", "marking accepted", "opaque yes"],
        ),
        capture(
            "eleven",
            &eleven,
            Some(eleven_marking),
            [
                "events 11 transactions 11 reads 0",
                "committed 0 aborted 0 pending 0 live 11",
                "marking accepted",
                "opaque refused 31",
            ],
        ),
        capture(
            "tally",
            &all_states(),
            Some(all_states_marking()),
            ["events 29 transactions 10 reads 1", "committed 1 aborted 4 pending 2 live 3", "marking accepted", "opaque yes"],
        ),
        refused("short-begin", Some(cut), None, "history refused 5 byte 6"),
        refused("absent", None, Some(h0_marking()), "history refused 3 byte 0"),
    ]
}

/// Every folder, also those whose orders are too many for the brute force: what is counted in the events.
#[test]
fn reports_count_what_the_events_say() {
    for folder in fs::read_dir(top()).unwrap().map(|entry| entry.unwrap().path()).filter(|path| path.is_dir()) {
        let history = history_file::read(&fs::read(folder.join("capture.hst")).unwrap_or_default());
        let expected = match history {
            Ok((_, events)) => counted(&events) + &tallied(&events),
            Err(refusal) => format!("history refused {} byte {}\n", refusal.number, refusal.place),
        };
        let report = fs::read_to_string(folder.join("report.txt")).unwrap();
        assert!(report.starts_with(&expected), "{}: the report begins\n{expected}", folder.display());
    }
}

#[test]
fn captures_have_their_bytes_and_their_report() {
    let top = top();
    for capture in captures().into_iter().chain(starts()).chain(lone()).chain(with_remarks()) {
        let bytes = |file: &Option<Vec<u8>>| file.clone().unwrap_or_default();
        assert_eq!(report(&bytes(&capture.history), &bytes(&capture.marking)), capture.report, "{}", capture.name);
        assert_eq!(lines(&bytes(&capture.history)), capture.notes, "{}", capture.name);
        let files = [
            ("capture.hst", capture.history),
            ("capture.mrk", capture.marking),
            ("report.txt", Some(capture.report.into_bytes())),
            ("notes.txt", capture.notes.map(String::into_bytes)),
        ];
        for (name, contents) in files {
            let path = top.join(capture.name).join(name);
            if env::var_os("SENDOSHI_WRITE_CAPTURES").is_some() {
                fs::create_dir_all(top.join(capture.name)).unwrap();
                contents.iter().for_each(|contents| fs::write(&path, contents).unwrap());
            }
            assert_eq!(fs::read(&path).ok(), contents, "{}/{name}", capture.name);
        }
    }
}

/// Captures that differ in notes only, and the reports on them, which do not differ, or in the byte only where a history is refused.
#[test]
fn captures_without_their_notes() {
    let read = |name: &str, file: &str| fs::read(top().join(name).join(file)).expect("a file of a capture");
    for (noted, bare) in [("notes-torn", "h7"), ("note-before-start", "lone-read-start"), ("notes-2048", "events-2048")] {
        assert_ne!(read(noted, "capture.hst"), read(bare, "capture.hst"));
        assert_eq!(without_notes(&read(noted, "capture.hst")), read(bare, "capture.hst"), "{noted}");
        assert_eq!(read(noted, "capture.mrk"), read(bare, "capture.mrk"), "{noted}");
        assert_eq!(read(noted, "report.txt"), read(bare, "report.txt"), "{noted}");
    }
    assert_eq!(without_notes(&read("notes-2049", "capture.hst")), read("events-2049", "capture.hst"));
    assert_eq!(read("events-2049", "report.txt"), b"history refused 6 byte 18434\n");
    assert_eq!(read("notes-2049", "report.txt"), b"history refused 6 byte 18447\n");
    // behind a note of 13 bytes
}
