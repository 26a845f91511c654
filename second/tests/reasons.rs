//! The reasons of pairs: their words and numbers, the rule that is named, the map that they give, and the call.

mod common;

use common::*;
use second::answer::answer;
use second::digest;
use second::figure2::figure2;
use second::generate::Generator;
use second::preempt::{
    all_reasons, distance, is_set, may_be_preempted, reason_for, true_map, Decider,
};
use second::reason_call::reason_call;
use second::reasons::Reason;
use second::records::{Pair, Task, MISSING_JITTER};
use second::stream::question::Question;
use second::stream::{Call, Case};
use second::table::Table;
use second::verdict::{records_of_table, Refusal};

#[test]
fn reasons_have_these_words_and_numbers() {
    let named = Reason::ALL.map(|reason| (reason.number(), reason.word(), reason.lets_nest()));
    let expected = [
        (1, "transaction", true),
        (2, "jitter", true),
        (3, "response", true),
        (4, "priority", false),
        (5, "pair", false),
        (6, "timing", false),
    ];
    assert_eq!(named, expected);
}

/// A task of offset 0 whose jitter passes every distance and whose response passes every wait.
fn always_late(id: u16, priority: u16) -> Task {
    Task {
        jitter: PERIOD,
        ..task(id, priority, 0, 2 * PERIOD)
    }
}

#[test]
fn jitter_is_named_before_response() {
    let (lower, upper) = (always_late(1, 1), always_late(2, 2));
    let asked = table(&[lower, upper], &[]);
    assert_eq!(reason_for(&asked, &lower, &upper), Reason::Jitter);
    let upper = Task { jitter: 0, ..upper };
    assert_eq!(reason_for(&asked, &lower, &upper), Reason::Response);
}

#[test]
fn times_are_not_asked_across_transactions() {
    let lower = always_late(1, 1);
    let brief = task(1, 1, 0, 0);
    let upper = Task {
        transaction: 2,
        ..always_late(2, 2)
    };
    let asked = table(&[lower, upper], &[]);
    assert_eq!(reason_for(&asked, &lower, &upper), Reason::Transaction);
    assert_eq!(reason_for(&asked, &brief, &upper), Reason::Transaction);
}

#[test]
fn priority_is_named_before_a_pair_and_a_pair_before_times() {
    let (lower, upper) = (always_late(1, 1), always_late(2, 2));
    let asked = table(&[lower, upper], &[precedence(1, 2)]);
    assert_eq!(reason_for(&asked, &lower, &upper), Reason::Pair);
    assert_eq!(reason_for(&asked, &upper, &lower), Reason::Priority);
    let brief = task(1, 1, 0, 0);
    assert_eq!(reason_for(&asked, &brief, &upper), Reason::Pair);
}

#[test]
fn a_task_with_itself_is_priority() {
    let alone = always_late(1, 1);
    for pairs in [&[][..], &[one_way(1, 1)], &[precedence(1, 1)]] {
        let asked = table(&[alone], pairs);
        assert_eq!(reason_for(&asked, &alone, &alone), Reason::Priority);
    }
    let unlisted = Table::default();
    assert_eq!(reason_for(&unlisted, &alone, &alone), Reason::Priority);
}

#[test]
fn the_other_way_round_has_another_reason() {
    let (lower, upper) = (task(1, 1, 0, 2 * PERIOD), task(2, 2, 0, 0));
    let asked = table(&[lower, upper], &[]);
    let reasons = all_reasons(&asked).into_iter();
    let words: Vec<&str> = reasons.map(Reason::word).collect();
    assert_eq!(words, ["priority", "response", "priority", "priority"]);
}

#[test]
fn without_a_period_times_say_no() {
    let (lower, upper) = (always_late(1, 1), always_late(2, 2));
    let asked = Table {
        transactions: Vec::new(),
        ..table(&[lower, upper], &[])
    };
    assert_eq!(reason_for(&asked, &lower, &upper), Reason::Timing);
    assert!(!may_be_preempted(&asked, &lower, &upper));
}

/// Why a task at this offset that is done at once may be preempted by this task of higher priority.
fn reason_at(offset: u32, upper: &Task) -> Reason {
    let lower = task(1, 1, offset, offset);
    reason_for(&table(&[lower, *upper], &[]), &lower, upper)
}

#[test]
fn a_missing_jitter_passes_every_distance() {
    let upper = unmeasured(2, 2, 500);
    assert_eq!(distance(upper.offset, 500, PERIOD), 0);
    assert_eq!(distance(upper.offset, 499, PERIOD), u64::from(PERIOD) - 1);
    let one_short = Task {
        jitter: PERIOD - 1,
        ..upper
    };
    assert_eq!(reason_at(499, &one_short), Reason::Timing);
    let unmoved = Task { jitter: 0, ..upper };
    assert_eq!(reason_at(500, &unmoved), Reason::Timing);
    for offset in [0, 1, 498, 499, 500, 501, PERIOD - 1] {
        assert_eq!(reason_at(offset, &upper), Reason::Jitter);
    }
}

#[test]
fn priority_and_a_pair_are_named_before_a_missing_jitter() {
    let (lower, upper) = (task(1, 2, 0, 0), unmeasured(2, 3, 0));
    let with = |upper: Task, pairs: &[Pair]| {
        let asked = table(&[lower, upper], pairs);
        reason_for(&asked, &lower, &upper)
    };
    assert_eq!(with(upper, &[]), Reason::Jitter);
    assert_eq!(with(unmeasured(2, 2, 0), &[]), Reason::Priority);
    assert_eq!(with(unmeasured(2, 1, 0), &[]), Reason::Priority);
    assert_eq!(with(upper, &[one_way(1, 2)]), Reason::Pair);
    assert_eq!(with(upper, &[precedence(2, 1)]), Reason::Pair);
    assert_eq!(with(upper, &[one_way(2, 1)]), Reason::Jitter);
}

#[test]
fn a_missing_jitter_is_not_asked_across_transactions() {
    let upper = Task {
        transaction: 2,
        ..unmeasured(2, 2, 500)
    };
    for offset in [0, 499, 500] {
        assert_eq!(reason_at(offset, &upper), Reason::Transaction);
    }
}

#[test]
fn a_missing_jitter_is_the_period_of_its_own_transaction() {
    let (lower, upper) = (task(1, 1, 0, 0), unmeasured(2, 2, 1));
    let in_second = |task: Task| Task {
        id: task.id + 2,
        transaction: 2,
        ..task
    };
    let mut asked = table(&[lower, upper, in_second(lower), in_second(upper)], &[]);
    for (first, second) in [(10, PERIOD), (PERIOD, 10)] {
        asked.transactions[0].period = first;
        asked.transactions[1].period = second;
        let reason =
            |row: usize, cell: usize| reason_for(&asked, &asked.tasks[row], &asked.tasks[cell]);
        assert_eq!([reason(0, 1), reason(2, 3)], [Reason::Jitter; 2]);
    }
    assert_eq!(upper.read_jitter(10), 10);
    assert_eq!(always_late(2, 2).read_jitter(10), PERIOD);
}

#[test]
fn a_missing_jitter_of_the_preempted_task_changes_nothing() {
    let changes_nothing = |asked: &Decider, (lower, upper): (&Task, &Task)| {
        let with = |jitter| asked.reason(&Task { jitter, ..*lower }, upper);
        with(MISSING_JITTER) == with(0) && with(0) == asked.reason(lower, upper)
    };
    for table in drawn_tables(Call::Reasons) {
        let asked = Decider::of(&table);
        assert!(pairs_of_tasks(&table).all(|pair| changes_nothing(&asked, pair)));
    }
}

/// The reason as a list of rules says it, of which the first that holds is named, given who comes before whom.
fn restated(table: &Table, led: &Led, lower: &Task, upper: &Task) -> Reason {
    let margins = margins(table, lower, upper);
    let is_forbidden = table.pairs.contains(&one_way(lower.id, upper.id))
        || led.contains(&(lower.id, upper.id))
        || led.contains(&(upper.id, lower.id));
    let rules = [
        (Reason::Priority, !is_urgent_enough(lower, upper)),
        (Reason::Pair, is_forbidden),
        (Reason::Transaction, lower.transaction != upper.transaction),
        (Reason::Jitter, margins.jitter > 0),
        (Reason::Response, margins.response > 0),
        (Reason::Timing, true),
    ];
    let first = rules.iter().find(|(_, holds)| *holds);
    first.expect("a rule that holds").0
}

/// Asserts that all reasons of a table are as restated, and that its map is set where they let nest.
fn assert_reasons_of(table: &Table) {
    let map = true_map(table);
    let led = led_along(&table.pairs);
    let mut reasons = all_reasons(table).into_iter();
    for (row, lower) in table.tasks.iter().enumerate() {
        for (cell, upper) in table.tasks.iter().enumerate() {
            let reason = reasons.next().expect("a reason for each pair");
            assert_eq!(reason, restated(table, &led, lower, upper));
            assert_eq!(reason.number() <= 3, is_set(&map, row, cell));
        }
    }
    assert_eq!(reasons.next(), None);
}

/// The accepted tables of 1,000 cases of this call.
fn drawn_tables(call: Call) -> Vec<Table> {
    let mut generator = Generator::from_seed(51);
    let images = (0..1000).map(|_| generator.next_case(call).image);
    let accepted = images.filter_map(|image| records_of_table(&image).ok());
    accepted.map(|records| Table::read(&records)).collect()
}

#[test]
fn reasons_of_drawn_tables_are_as_restated_and_give_the_map() {
    for call in [Call::TableVerdict, Call::Map, Call::Reasons] {
        let tables = drawn_tables(call);
        assert!(tables.len() > 400);
        tables.iter().for_each(assert_reasons_of);
    }
}

#[test]
fn a_call_answers_by_ids_and_in_their_order() {
    let image = table_image(&figure2());
    assert_eq!(reason_call(&image, 11, 12), Ok(Reason::Response));
    assert_eq!(reason_call(&image, 12, 23), Ok(Reason::Transaction));
    assert_eq!(reason_call(&image, 23, 12), Ok(Reason::Priority));
    assert_eq!(reason_call(&image, 12, 12), Ok(Reason::Priority));
    assert_eq!(reason_call(&image, 11, 13), Ok(Reason::Timing));
}

#[test]
fn a_call_refuses_every_unlisted_id_with_15() {
    let unlisted = [
        0,
        10,
        24,
        65_535,
        65_536,
        65_536 + 11,
        131_072 + 12,
        u32::MAX,
    ];
    let refused = Err(Refusal::new(15, 0));
    let image = table_image(&figure2());
    for id in unlisted {
        assert_eq!(reason_call(&image, id, 12), refused);
        assert_eq!(reason_call(&image, 11, id), refused);
        assert_eq!(reason_call(&image, id, id), refused);
    }
    assert_eq!(reason_call(&table_image(&Table::default()), 1, 1), refused);
}

#[test]
fn a_call_takes_the_highest_id_and_no_number_past_it() {
    let image = table_image(&table(&[task(u16::MAX, 1, 0, 0)], &[]));
    assert_eq!(reason_call(&image, 65_535, 65_535), Ok(Reason::Priority));
    let refused = Err(Refusal::new(15, 0));
    assert_eq!(reason_call(&image, 65_535, 131_071), refused);
}

#[test]
fn a_call_refuses_the_table_before_the_ids() {
    let mut generator = Generator::from_seed(52);
    let mut refused = 0;
    for _ in 0..1000 {
        let image = generator.next_case(Call::TableVerdict).image;
        if let Err(refusal) = records_of_table(&image) {
            assert_eq!(reason_call(&image, 0, u32::MAX), Err(refusal));
            refused += 1;
        }
    }
    assert!(refused > 400);
}

/// A case that puts these questions to this image.
fn asking(image: Vec<u8>, questions: &[(u32, u32)]) -> Case {
    let row = |&(low, high): &(u32, u32)| Question { low, high }.row();
    Case {
        map_read: questions.iter().map(row).collect(),
        ..Case::lending(Call::Reasons, image)
    }
}

#[test]
fn a_question_is_the_low_id_and_then_the_high_one() {
    let case = asking(Vec::new(), &[(1, 2), (65_536 + 11, u32::MAX)]);
    let mut stream = Vec::new();
    case.write(&mut stream).expect("a stream in memory");
    assert_eq!((stream[0], stream[12]), (b'W', 2));
    let questions = [1, 0, 0, 0, 2, 0, 0, 0, 11, 0, 1, 0, 255, 255, 255, 255];
    assert_eq!(stream[32..], questions);
    let low_and_high = Question::from_row(case.map_read[1]);
    assert_eq!(low_and_high.low, 65_547);
    assert_eq!(low_and_high.high, u32::MAX);
}

#[test]
fn the_line_of_figure_2_has_its_36_reasons() {
    let reasons = [
        [4, 3, 6, 1, 4, 1],
        [4, 4, 6, 1, 4, 1],
        [4, 4, 4, 4, 4, 4],
        [4, 4, 1, 4, 4, 4],
        [4, 1, 1, 6, 4, 3],
        [4, 4, 1, 4, 4, 4],
    ];
    let mut bytes = [0; 4096];
    for (row, numbers) in reasons.iter().enumerate() {
        bytes[64 * row..64 * row + 6].copy_from_slice(numbers);
    }
    let digest = digest::of_bytes(bytes);
    let mut case = asking(table_image(&figure2()), &[(11, 12), (12, 23), (11, 65_548)]);
    let line = format!("W 0 0 {digest} 8 0 2 23 0 3 | 0 0 3 | 0 0 1 | 15 0 0");
    assert_eq!(answer(&mut case), line);
}

#[test]
fn the_line_of_a_refused_table_has_no_reasons() {
    let none = format!("{} 0 0 0 0 0 0", digest::of_bytes([0; 4096]));
    let refused = |questions| answer(&mut asking(Vec::new(), questions));
    assert_eq!(refused(&[]), format!("W 1 0 {none}"));
    assert_eq!(refused(&[(1, 0)]), format!("W 1 0 {none} | 1 0 0"));
    let mut empty = asking(table_image(&Table::default()), &[(1, 1)]);
    assert_eq!(answer(&mut empty), format!("W 0 0 {none} | 15 0 0"));
}
