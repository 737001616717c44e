//! The examples of the documents, worked out there by hand.

use reference::calls::answer_script;
use reference::check::{check, Table};
use reference::fault::Fault;
use reference::figure::{Figure, Peak, Tally};
use reference::order::{Lean, Order};
use reference::passes::{Entry, Holds, Query};
use reference::quote::quote;
use reference::select::{select, Patience};
use reference::table_file::{read_table_file, Room};
use reference::weights::read_weights;

const PLANT_K: &str = include_str!("../../examples/plant-k.txt");
const WEIGHTS_BEGIN: usize = 79;

/// Text as the documents show it: a space for a tab, but none in the names.
fn tabbed(text: &str) -> String {
    text.replace(' ', "\t")
        .replace("free\tcooling", "free cooling")
        .replace("hot\tday", "hot day")
}

/// Plant K with one of its lines changed, counted from 1.
fn with_line(number: usize, line: &str) -> String {
    let mut lines: Vec<String> = PLANT_K.lines().map(String::from).collect();
    lines[number - 1] = tabbed(line);
    lines.join("\n") + "\n"
}

fn seen(fault: Fault) -> (usize, usize) {
    (fault.refusal.number(), fault.place)
}

fn read_refusal(text: &str) -> Option<(usize, usize)> {
    read_table_file(text.as_bytes(), Room::FULL).err().map(seen)
}

fn check_refusal(text: &str) -> Option<(usize, usize)> {
    let file = read_table_file(text.as_bytes(), Room::FULL).expect("the reader accepts it");
    check(file).err().map(seen)
}

fn plant_k() -> Table {
    check(read_table_file(PLANT_K.as_bytes(), Room::FULL).unwrap()).unwrap()
}

#[test]
fn the_weight_text_of_plant_k_begins_at_79() {
    let file = read_table_file(PLANT_K.as_bytes(), Room::FULL).unwrap();
    assert_eq!(file.weights_begin, WEIGHTS_BEGIN);
    let without = &PLANT_K[..WEIGHTS_BEGIN];
    let file = read_table_file(without.as_bytes(), Room::FULL).unwrap();
    assert_eq!(file.weights_begin, WEIGHTS_BEGIN);
}

#[test]
fn the_reader_refuses_as_the_examples_say() {
    assert_eq!(read_refusal(""), Some((1, 0)));
    assert_eq!(read_refusal(&with_line(9, "A")), Some((2, 9)));
    assert_eq!(read_refusal(&with_line(1, "G 2 07 6")), Some((3, 1)));
    assert_eq!(read_refusal(&with_line(1, "G 65 7 6")), Some((4, 1)));
    assert_eq!(
        read_refusal(&with_line(3, "V 2 R free cooling")),
        Some((6, 3))
    );
    assert_eq!(read_refusal(&with_line(1, "G 2 7 5")), Some((7, 10)));
    assert_eq!(read_refusal(&with_line(1, "G 2 7 7")), Some((7, 10)));
    let six_nodes = Room {
        nodes: 6,
        children: 12_288,
    };
    let refused = read_table_file(PLANT_K.as_bytes(), six_nodes).unwrap_err();
    assert_eq!(seen(refused), (5, 1));
}

#[test]
fn the_reader_judges_the_edge_cases() {
    let cases = [
        (1, "GG 2 7 6", Some(2)),
        (1, "", Some(2)),
        (1, "G 2 7 6 ", Some(2)),
        (1, "G 2 7 6\r", Some(2)),
        (4, "V 3 R damper", Some(2)),
        (3, "L 2", Some(2)),
        (9, "A", Some(2)),
        (9, "A ", Some(3)),
        (9, "T ", Some(2)),
        (1, "G 2  6", Some(3)),
        (1, "G 2 70000 6", Some(3)),
        (5, "L -", Some(3)),
        (5, "L --1", Some(3)),
        (5, "L +1", Some(3)),
        (5, "L -01", Some(3)),
        (5, "L -0", None),
        (5, "L 0", None),
        (5, "L 64", None),
        (3, "V x EE damper", Some(3)),
        (2, "V 1 EE damper", Some(6)),
        (2, "V 1  damper", Some(6)),
        (2, "V 1 e damper", Some(6)),
        (3, "V 2 R ", Some(6)),
        (3, "V 2 R 1234567890123456789012345", Some(6)),
        (3, "V 2 R 123456789012345678901234", None),
    ];
    for (number, line, refusal) in cases {
        let wanted = refusal.map(|refusal| (refusal, number));
        assert_eq!(read_refusal(&with_line(number, line)), wanted, "{line}");
    }
    assert_eq!(read_refusal(&format!(" {PLANT_K}")), Some((2, 1)));
    let one_too_many = PLANT_K.replace("G\t2\t7\t6", "G\t2\t7\t1");
    let bad_child = one_too_many.replace("A\t0\t1\n", "A\t0\t1\tx\n");
    assert_eq!(read_refusal(&bad_child), Some((3, 6)));
}

#[test]
fn a_file_that_is_cut_off_is_refused_where_the_cut_is() {
    for cut in 1..WEIGHTS_BEGIN {
        let text = &PLANT_K[..cut];
        let line = text.matches('\n').count() + 1;
        assert_eq!(read_refusal(text), Some((2, line)), "cut at {cut}");
    }
}

#[test]
fn the_21st_option_is_refused() {
    let mut text = String::from("G\t21\t1\t0\n");
    for number in 1..=21 {
        text += &format!("V\t{number}\tE\toption {number}\n");
    }
    assert_eq!(read_refusal(&(text + "T\n")), Some((6, 22)));
}

#[test]
fn the_check_refuses_as_the_examples_say() {
    assert_eq!(check_refusal(&with_line(10, "O 2 2 6")), Some((8, 6)));
    assert_eq!(check_refusal(&with_line(8, "L 3")), Some((9, 4)));
    assert_eq!(check_refusal(&with_line(9, "A 3 0")), Some((10, 5)));
    assert_eq!(check_refusal(&with_line(10, "O 2 5 2")), Some((11, 6)));
    let variables = "V 1 E free cooling\nV 2 R hot day\n";
    let uneven = format!("G 2 5 4\n{variables}L 1\nL -1\nL 2\nA 1 2\nO 1 0 3\n");
    assert_eq!(check_refusal(&tabbed(&uneven)), Some((12, 4)));
    let not_total = format!("G 2 1 0\n{variables}L 1\n");
    assert_eq!(check_refusal(&tabbed(&not_total)), Some((13, 0)));
}

#[test]
fn the_weight_text_is_read_as_the_examples_say() {
    let cases = [
        ("", None, [1, 1, 1, 1]),
        ("W 2 3 7\n\n", Some((2, 2)), [1, 1, 3, 7]),
        ("W 2 3 7", Some((2, 1)), [1, 1, 1, 1]),
        ("W 2 3\n", Some((2, 1)), [1, 1, 1, 1]),
        ("W 1 3 x\n", Some((3, 1)), [1, 1, 1, 1]),
        ("W 2 3 07\n", Some((3, 1)), [1, 1, 1, 1]),
        ("W 1 3 7\n", Some((17, 1)), [1, 1, 1, 1]),
        ("W 2 3 7\nW 3 1 1\n", Some((17, 2)), [1, 1, 3, 7]),
        ("W 2 3 7\nW 2 5 5\n", None, [1, 1, 5, 5]),
    ];
    let table = plant_k();
    for (text, refusal, afterwards) in cases {
        let mut sheet = [Tally(9); 5];
        let answer = read_weights(&table, &mut sheet, tabbed(text).as_bytes());
        assert_eq!(answer.err().map(seen), refusal, "{text}");
        assert_eq!(sheet[..4], afterwards.map(Tally), "{text}");
        assert_eq!(sheet[4], Tally(9));
    }
    let mut short = [Tally(9); 3];
    let refused = read_weights(&table, &mut short, b"").unwrap_err();
    assert_eq!((seen(refused), short), ((14, 0), [Tally(9); 3]));
}

/// Plant K's sheet, its option's places never read.
fn sheet_of<F: Figure>(hot: F, other: F) -> [F; 4] {
    [F::ZERO, F::ZERO, hot, other]
}

#[test]
fn the_passes_of_plant_k_are_those_worked_out_by_hand() {
    let table = plant_k();
    let sheet = sheet_of(Tally(3), Tally(7));
    let free = Holds::new();
    let mut on = Holds::new();
    on.set(1, Entry::On);
    let mut work = [Tally::ZERO; 21];
    let query_of = |holds| Query {
        table: &table,
        sheet: &sheet,
        holds,
    };
    assert_eq!(query_of(&on).figure(&mut work), Tally(7));
    assert_eq!(work[..7], [3, 0, 0, 7, 1, 7, 7].map(Tally));
    assert_eq!(query_of(&free).figure(&mut work), Tally(3));
    assert_eq!(work[..7], [3, 1, 3, 7, 0, 0, 3].map(Tally));
    assert_eq!(query_of(&free).plain_bound(&mut work), Tally(10));
    assert_eq!(work[..7], [3, 1, 3, 7, 1, 7, 10].map(Tally));
    assert_eq!(query_of(&free).bound(&mut work), Tally(7));
    let parts = [
        3, 0, 0, 1, 0, 1, 3, 0, 3, 7, 0, 0, 1, 1, 0, 7, 7, 0, 7, 7, 3,
    ];
    assert_eq!(work, parts.map(Tally));
}

/// Select on plant K: the option's side with the figure, and the openings.
fn found<F: Figure>(hot: F, other: F, entry: Entry) -> (Option<(Entry, F)>, u64) {
    let table = plant_k();
    let mut holds = Holds::new();
    holds.set(1, entry);
    let query = Query {
        table: &table,
        sheet: &sheet_of(hot, other),
        holds: &holds,
    };
    let mut work = [F::ZERO; 21];
    let found = select(&query, &mut work, Order::Number, Patience::ENDLESS).unwrap();
    let best = found.best.map(|best| (best.selection.get(1), best.figure));
    (best, found.openings)
}

#[test]
fn select_on_plant_k_does_what_was_worked_out_by_hand() {
    let tallies = |hot, other, entry| found(Tally(hot), Tally(other), entry);
    let free = Entry::Free;
    assert_eq!(tallies(3, 7, free), (Some((Entry::On, Tally(7))), 3));
    assert_eq!(tallies(5, 5, free), (Some((Entry::On, Tally(5))), 3));
    assert_eq!(tallies(0, 0, free), (None, 1));
    assert_eq!(tallies(0, 7, Entry::Off), (None, 1));
    assert_eq!(
        found(Peak::Load(9_000), Peak::Load(4_000), free),
        (Some((Entry::Off, Peak::Load(9_000))), 3)
    );
}

#[test]
fn the_orders_name_what_the_example_says() {
    let lean = |option, mentioned, on_value, off_value| Lean {
        option,
        mentioned,
        on_value: Tally(on_value),
        off_value: Tally(off_value),
    };
    let leans = [
        lean(1, true, 9, 6),
        lean(2, false, 0, 0),
        lean(4, true, 8, 4),
        lean(5, true, 4, 9),
    ];
    assert_eq!(Order::Number.pick(&leans), 1);
    assert_eq!(Order::StrongestLean.pick(&leans), 4);
    assert_eq!(Order::StrongestLean.pick(&leans[1..2]), 2);
}

/// What the program `calls` prints for a script before plant K.
fn answers(script: &str) -> String {
    let input = tabbed(script) + PLANT_K;
    let outcome = answer_script(input.as_bytes(), Patience::ENDLESS).unwrap();
    outcome.to_string()
}

#[test]
fn the_working_day_on_plant_k_is_answered_as_the_example_says() {
    let day = "D tally number 4 21\n\
               C bound\nC figure\nC trial 1 off\nC hold 1 off\nC hold 1 on\nC figure\n\
               C weigh 2 0 7\nC select\nC release 1\nC select\nC weigh 1 2 2\n";
    let wanted = "V 7\nX 20 0\nV 3\nD\nX 18 1\nV 3\nD\nS none 1\nD\nS 7 3 free cooling\nX 17 1\n";
    assert_eq!(answers(day), tabbed(wanted));
}

#[test]
fn the_study_in_the_document_is_answered_as_it_says() {
    let day = "D tally number 4 21\n\
               C bound\nC trial 1 off\nC hold 1 on\nC figure\nC release 1\nC weigh 2 5 5\nC select\n";
    let wanted = "V 7\nV 3\nD\nV 7\nD\nD\nS 5 3 free cooling\n";
    assert_eq!(answers(day), tabbed(wanted));
    assert_eq!(answers("D tally number 4 20\nC bound\n"), "X\t21\t0\n");
}

#[test]
fn a_script_that_has_not_the_form_gives_its_line() {
    assert_eq!(answers(""), "E\t1\n");
    assert_eq!(answers("D tally number 4 021\n"), "E\t1\n");
    assert_eq!(
        answers("D tally number 4 21\nC bound\nC hold 1\n"),
        "E\t3\n"
    );
    assert_eq!(answers("D tally number 3 21\nC bound\n"), "X\t14\t0\n");
    assert_eq!(answers("D peak lean 4 21\nC bound\nD\n"), "X\t2\t1\n");
}

#[test]
fn quote_prints_the_bound_and_the_best_selection() {
    let lines = quote(PLANT_K.as_bytes(), Patience::ENDLESS);
    assert_eq!(
        lines,
        Ok(Some(String::from("B\t7\nS\t7\t3\tfree cooling\n")))
    );
}
