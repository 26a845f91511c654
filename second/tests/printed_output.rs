//! What the commands print.

mod common;

use std::io::Write;
use std::process::{Command, Output, Stdio};

use common::{precedence, stream_of, table, table_image, task};
use second::figure2::figure2;
use second::heaviest::heaviest;
use second::stream::{Call, Case};
use second::table::Table;

const FIGURE_2: &str = "tasks 6\nchain 8: 11 12 23\npath 10\ntransactions 9\nlevels 10\n";
const FIGURE_2_REASONS: &str = "11 12 response\n12 23 transaction\n";
const FIGURE_2_ROOM: &str = "11 4\n12 4\n13 6\n21 5\n22 6\n23 4\n";

/// Each task nests in all of lower priority: 4 + 1 + 3 + 2, and 4 + 1 + 2 and 1 + 3 by transactions.
const UNMEASURED: &str = "tasks 6\nchain 10: 11 12 23 13\npath 10\ntransactions 11\nlevels 10\n";
const UNMEASURED_REASONS: &str = "11 12 jitter\n12 23 transaction\n23 13 transaction\n";

/// No task of priority 3 nests in task 12: the chain is 4 + 3, the path 4 + 3 + 2.
const THRESHOLDS: &str = "tasks 6\nchain 7: 11 23\npath 9\ntransactions 9\nlevels 10\n";
const THRESHOLDS_REASONS: &str = "11 23 transaction\n";

/// Tasks 11 and 23 stand at the ends of a path: the chain is 4 + 2, the path 4 + 2 + 2, and 4 and 1 + 3 by transactions.
const PRECEDENCE: &str = "tasks 6\nchain 6: 11 21\npath 8\ntransactions 8\nlevels 10\n";
const PRECEDENCE_REASONS: &str = "11 21 transaction\n";

/// The commands that print what they say of one image, and read all of their input for it.
const REPORTS: [&[&str]; 4] = [
    &["bounds"],
    &["reasons"],
    &["room", "12"],
    &["opened", "12"],
];

/// Runs the program with these arguments and this input.
fn run(arguments: &[&str], input: &[u8]) -> Output {
    let mut child = Command::new(env!("CARGO_BIN_EXE_second"))
        .args(arguments)
        .stdin(Stdio::piped())
        .stdout(Stdio::piped())
        .stderr(Stdio::piped())
        .spawn()
        .expect("the program starts");
    let written = child.stdin.take().expect("an input").write_all(input);
    let reads_all = REPORTS.contains(&arguments);
    assert!(written.is_ok() || !reads_all);
    child.wait_with_output().expect("the program ends")
}

fn printed(arguments: &[&str], input: &[u8]) -> String {
    String::from_utf8(run(arguments, input).stdout).expect("text")
}

#[test]
fn figure_2_is_printed_exactly() {
    let image = table_image(&figure2());
    assert_eq!(printed(&["bounds"], &image), FIGURE_2);
    assert_eq!(printed(&["reasons"], &image), FIGURE_2_REASONS);
    assert_eq!(printed(&["room", "12"], &image), FIGURE_2_ROOM);
}

#[test]
fn figure_2_is_the_example_and_the_command() {
    let example = include_bytes!("../../examples/figure2.tb");
    assert_eq!(run(&["figure2"], &[]).stdout, example);
    assert_eq!(printed(&["bounds"], example), FIGURE_2);
    let reasons = include_str!("../../examples/figure2.reasons.txt");
    assert_eq!(printed(&["reasons"], example), reasons);
    let room = include_str!("../../examples/figure2.room.txt");
    assert_eq!(printed(&["room", "12"], example), room);
}

#[test]
fn figure_2_with_no_jitter_measured_is_the_example_and_the_command() {
    let example = include_bytes!("../../examples/unmeasured.tb");
    assert_eq!(run(&["unmeasured"], &[]).stdout, example);
    assert_eq!(printed(&["bounds"], example), UNMEASURED);
    assert_eq!(printed(&["reasons"], example), UNMEASURED_REASONS);
    let bounds = include_str!("../../examples/unmeasured.txt");
    let reasons = include_str!("../../examples/unmeasured.reasons.txt");
    assert_eq!((bounds, reasons), (UNMEASURED, UNMEASURED_REASONS));
}

#[test]
fn figure_2_with_a_threshold_is_the_example_and_the_command() {
    let example = include_bytes!("../../examples/thresholds.tb");
    assert_eq!(run(&["thresholds"], &[]).stdout, example);
    assert_eq!(printed(&["bounds"], example), THRESHOLDS);
    assert_eq!(printed(&["reasons"], example), THRESHOLDS_REASONS);
    let bounds = include_str!("../../examples/thresholds.txt");
    let reasons = include_str!("../../examples/thresholds.reasons.txt");
    assert_eq!((bounds, reasons), (THRESHOLDS, THRESHOLDS_REASONS));
}

#[test]
fn figure_2_with_precedence_pairs_is_the_example_and_the_command() {
    let example = include_bytes!("../../examples/precedence.tb");
    assert_eq!(run(&["precedence"], &[]).stdout, example);
    assert_eq!(printed(&["bounds"], example), PRECEDENCE);
    assert_eq!(printed(&["reasons"], example), PRECEDENCE_REASONS);
    let bounds = include_str!("../../examples/precedence.txt");
    let reasons = include_str!("../../examples/precedence.reasons.txt");
    assert_eq!((bounds, reasons), (PRECEDENCE, PRECEDENCE_REASONS));
}

#[test]
fn patches_of_cases_are_the_examples_and_the_commands() {
    let examples: [(&str, &[u8]); 3] = [
        ("11", include_bytes!("../../examples/case11.pa")),
        ("12", include_bytes!("../../examples/case12.pa")),
        ("13", include_bytes!("../../examples/case13.pa")),
    ];
    for (number, example) in examples {
        assert_eq!(run(&["patch", number], &[]).stdout, example);
    }
}

#[test]
fn cases_are_streams_of_runs() {
    for (number, runs, steps) in [("11", 1, 1), ("12", 1, 1), ("13", 2, 3)] {
        let answers = printed(&["answer"], &run(&["case", number], &[]).stdout);
        assert_eq!(answers.lines().count(), runs);
        assert!(answers.lines().all(|line| line.starts_with("R ")));
        assert_eq!(answers.matches(" | ").count(), steps);
    }
}

#[test]
fn sorts_are_counted_where_their_calls_are() {
    let sorts_of = |letters: &str| {
        let stream = run(&["generate", "3", letters, "50"], &[]).stdout;
        printed(&["sorts"], &stream)
    };
    let sorts = [
        ("T", 16),
        ("P", 2),
        ("M", 7),
        ("A", 31),
        ("R", 11),
        ("W", 7),
        ("V", 19),
        ("U", 29),
        ("G", 47),
        ("H", 55),
        ("VAU", 79),
    ];
    for (letters, count) in sorts {
        assert_eq!(sorts_of(letters).lines().count(), count);
    }
    assert_eq!(sorts_of("BL"), "");
}

#[test]
fn simulated_systems_are_told_in_one_line() {
    let line = printed(&["simulate", "1", "20"], &[]);
    assert_eq!(line.lines().count(), 1);
    assert!(line.starts_with("20 systems, "));
    assert!(line.contains(" instances: bound never passed, reached in "));
    assert_eq!(printed(&["simulate", "1", "20"], &[]), line);
    assert_ne!(printed(&["simulate", "2", "20"], &[]), line);
}

#[test]
fn no_tasks_print_zeros() {
    assert_eq!(
        printed(&["bounds"], &table_image(&Table::default())),
        "tasks 0\nchain 0:\npath 0\ntransactions 0\nlevels 0\n"
    );
}

#[test]
fn a_chain_without_neighbours_prints_no_reasons() {
    let (lower, upper) = (task(1, 1, 0, 1), task(2, 2, 0, 1));
    for tasks in [&[][..], &[lower], &[lower, upper]] {
        let image = table_image(&table(tasks, &[]));
        assert_eq!(printed(&["reasons"], &image), "");
    }
    assert_eq!(printed(&["reasons"], &table_image(&Table::default())), "");
}

#[test]
fn the_longest_chain_prints_63_reasons() {
    let line = |low: u16| format!("{low} {} jitter\n", low + 1);
    let lines: String = (1..=63).map(line).collect();
    assert_eq!(printed(&["reasons"], &table_image(&heaviest())), lines);
}

/// The lines of a table whose tasks 1 to count have all the same figure.
fn equal_figures(count: u16, figure: i64) -> String {
    (1..=count).map(|id| format!("{id} {figure}\n")).collect()
}

#[test]
fn room_has_a_sign_where_the_reserve_is_too_small() {
    let image = table_image(&heaviest());
    let figures = [
        ("0", -4_194_240),
        ("4194239", -1),
        ("4194240", 0),
        ("4194241", 1),
        ("4294967295", 4_290_773_055),
    ];
    for (reserve, figure) in figures {
        assert_eq!(
            printed(&["room", reserve], &image),
            equal_figures(64, figure)
        );
    }
}

#[test]
fn no_tasks_have_no_room() {
    let image = table_image(&Table::default());
    assert_eq!(printed(&["room", "0"], &image), "");
}

#[test]
fn a_reserve_may_have_leading_zeros_in_32_digits() {
    let image = table_image(&figure2());
    for reserve in ["012", &format!("{:032}", 12)] {
        assert_eq!(printed(&["room", reserve], &image), FIGURE_2_ROOM);
    }
    for reserve in [
        "4294967296",
        "",
        "-1",
        "+1",
        "1 ",
        "0x1",
        &format!("{:033}", 12),
    ] {
        assert_eq!(run(&["room", reserve], &[]).status.code(), Some(2));
    }
}

#[test]
fn opened_chains_are_told_up_to_the_limit() {
    let image = table_image(&figure2());
    for limit in ["12", "013", "4294967295"] {
        assert_eq!(printed(&["opened", limit], &image), "opened 12\n");
    }
    for limit in ["0", "11"] {
        assert_eq!(printed(&["opened", limit], &image), "refused 13 at 0\n");
    }
    assert_eq!(run(&["opened", "4294967296"], &[]).status.code(), Some(2));
}

#[test]
fn the_examples_open_as_many_chains_as_their_page_says() {
    let counts = [
        ("thresholds", 10),
        ("precedence", 8),
        ("unmeasured", 16),
        ("cancelled", 15),
        ("heaviest", 2081),
    ];
    for (table, count) in counts {
        let path = format!("{}/../examples/{table}.tb", env!("CARGO_MANIFEST_DIR"));
        let image = std::fs::read(path).unwrap();
        assert_eq!(
            printed(&["opened", "4294967295"], &image),
            format!("opened {count}\n")
        );
    }
}

#[test]
fn a_refusal_is_one_line() {
    for report in REPORTS {
        assert_eq!(printed(report, &[]), "refused 1 at 0\n");
        let mut image = table_image(&figure2());
        image[510] ^= 1;
        assert_eq!(printed(report, &image), "refused 2 at 0\n");
        image[8] = 9;
        second::blocks::mend_checks(&mut image);
        assert_eq!(printed(report, &image), "refused 4 at 0\n");
        let mut circle = figure2();
        circle.pairs = vec![precedence(21, 22), precedence(22, 21)];
        assert_eq!(printed(report, &table_image(&circle)), "refused 14 at 21\n");
    }
}

#[test]
fn input_past_the_longest_table_is_refusal_1() {
    for report in REPORTS {
        assert_eq!(printed(report, &[0; 11_776]), "refused 3 at 0\n");
        assert_eq!(printed(report, &[0; 11_777]), "refused 1 at 0\n");
        assert_eq!(printed(report, &vec![0; 2_000_000]), "refused 1 at 0\n");
    }
}

#[test]
fn wrong_usage_is_told_on_standard_error() {
    let wrong: [&[&str]; 18] = [
        &[],
        &["other"],
        &["bounds", "more"],
        &["reasons", "more"],
        &["room"],
        &["room", "twelve"],
        &["room", "12", "more"],
        &["opened"],
        &["opened", "all"],
        &["generate", "1", "T"],
        &["generate", "1", "TX", "3"],
        &["generate", "1", "", "3"],
        &["case"],
        &["case", "14"],
        &["patch", "twelve"],
        &["simulate", "1"],
        &["simulate", "one", "3"],
        &["simulate", "1", "0"],
    ];
    for arguments in wrong {
        let output = run(arguments, &[]);
        assert_eq!(output.status.code(), Some(2));
        assert!(output.stdout.is_empty());
        assert!(String::from_utf8_lossy(&output.stderr).starts_with("usage: "));
    }
}

#[test]
fn answers_stop_where_the_stream_breaks() {
    let stream = run(&["generate", "3", "TPMBA", "20"], &[]).stdout;
    let whole = printed(&["answer"], &stream);
    assert_eq!(whole.lines().count(), 20);
    let cut = printed(&["answer"], &stream[..stream.len() - 1]);
    assert_eq!(cut.lines().count(), 19);
    assert!(whole.starts_with(&cut));
    let mut other_letter = stream.clone();
    other_letter[0] = b'X';
    assert_eq!(printed(&["answer"], &other_letter), "");
    let mut past_limit = stream;
    past_limit[4..8].copy_from_slice(&24_577u32.to_le_bytes());
    assert_eq!(printed(&["answer"], &past_limit), "");
}

/// The stream of a case that puts this many questions to figure 2.
fn stream_of_questions(questions: usize) -> Vec<u8> {
    stream_of(&Case {
        map_read: vec![0; questions],
        ..Case::lending(Call::Reasons, table_image(&figure2()))
    })
}

#[test]
fn a_case_has_80_questions_at_most() {
    let most = stream_of_questions(80);
    let line = printed(&["answer"], &most);
    assert_eq!(line.matches(" | 15 0 0").count(), 80);
    assert_eq!(printed(&["answer"], &most[..most.len() - 1]), "");
    assert_eq!(printed(&["answer"], &stream_of_questions(81)), "");
}
