use super::*;
use crate::calendar::Calendar;
use crate::market::trades_to_the_limit;
use crate::rows;

/// Applies a row that is well formed.
fn apply(book: &mut Book, row: &str) -> Result<Done, Refusal> {
    book.apply(rows::read(row.as_bytes(), &Calendar::default()).expect(row))
}

/// Applies rows that are carried out, one to a line.
fn run(book: &mut Book, rows: &str) {
    for row in rows.split_whitespace() {
        if let Err(refusal) = apply(book, row) {
            panic!("{row}: {refusal:?}");
        }
    }
}

fn book(rows: &str) -> Book {
    let mut book = Book::new();
    run(&mut book, rows);
    book
}

/// The number that a row is refused with; the book must stay as it is.
fn refused(book: &mut Book, row: &str) -> u64 {
    let before = book.clone();
    let refusal = apply(book, row).expect_err(row);
    assert!(*book == before, "{row} changed the book");
    refusal.number()
}

fn session(book: &mut Book, row: &str) -> Session {
    match apply(book, row) {
        Ok(Done::Settled(session)) => *session,
        other => panic!("{row}: {other:?}"),
    }
}

/// Money of the first accounts, and 0 of the others.
fn first(money: &[i64]) -> [i64; ACCOUNTS] {
    array::from_fn(|account| money.get(account).copied().unwrap_or(0))
}

/// What the first accounts have in their two sections; the others have nothing.
fn in_both(sections: &[[i64; SECTIONS]]) -> Places<i64> {
    array::from_fn(|account| sections.get(account).copied().unwrap_or_default())
}

/// What the first accounts have in section 0; the others have nothing.
fn in_0(amounts: &[i64]) -> Places<i64> {
    first(amounts).map(|amount| [amount, 0])
}

/// Shares contracts out to writers who are all that there are.
fn shared_out(exercised: i64, short: &Places<i64>) -> Places<i64> {
    assign(exercised, short.as_flattened().iter().sum(), short)
}

const CALL: &str = "L,GAZR-3.23M150323CA17000,100,5";

// RULES, "Values and splits".

#[test]
fn half_of_five() {
    for (kind, half) in [("CA", 3), ("PA", 2)] {
        let mut book = book(&format!("L,GAZR-3.23M150323{kind}17000,100,0 T,0,1,2,5,0 M,0,0,1700000,100000"));
        let sign = if kind == "CA" { 1 } else { -1 };
        assert_eq!(session(&mut book, "V").futures, [(0, 1, sign * half), (0, 2, -sign * half)]);
    }
}

#[test]
fn splits() {
    assert_eq!(shared_out(3, &in_0(&[2, 2, 2])), in_0(&[1, 1, 1]));
    assert_eq!(shared_out(2, &in_0(&[1, 1, 1])), in_0(&[1, 1, 0]));
    // Leftovers don't all go to account 0: 7 × 2, 3, 5 / 10 is 1.4, 2.1, 3.5.
    assert_eq!(shared_out(7, &in_0(&[2, 3, 5])), in_0(&[1, 2, 4]));
    // 3 × 1, 2, 2 / 5 is 0.6, 1.2, 1.2 and 4 × 1, 2, 2 / 5 is 0.8, 1.6, 1.6.
    assert_eq!(shared_out(3, &in_0(&[1, 2, 2])), in_0(&[1, 1, 1]));
    assert_eq!(shared_out(4, &in_0(&[1, 2, 2])), in_0(&[1, 2, 1]));
    assert_eq!(shared_out(0, &in_0(&[1, 2, 2])), in_0(&[]));
    assert_eq!(shared_out(0, &in_0(&[])), in_0(&[]));
}

#[test]
fn equal_remainders_go_by_account_and_then_section() {
    let short = in_both(&[[1, 1], [1, 1], [1, 1]]);
    for (exercised, assigned) in [
        (1, [[1, 0], [0, 0], [0, 0]]),
        (2, [[1, 1], [0, 0], [0, 0]]),
        (3, [[1, 1], [1, 0], [0, 0]]),
        (4, [[1, 1], [1, 1], [0, 0]]),
        (5, [[1, 1], [1, 1], [1, 0]]),
        (6, [[1, 1], [1, 1], [1, 1]]),
    ] {
        assert_eq!(shared_out(exercised, &short), in_both(&assigned));
    }
    // The largest remainder comes first, whichever section it is in: 2 × 1, 2, 2, 1 / 6 is 0.33, 0.67, 0.67, 0.33.
    assert_eq!(shared_out(2, &in_both(&[[1, 2], [2, 1]])), in_both(&[[0, 1], [1, 0]]));
    // An account is no writer of what its sections are short together: 1 × 2, 2, 3 / 7, and not 1 × 4, 3 / 7.
    assert_eq!(shared_out(1, &in_both(&[[2, 2], [3, 0]])), in_both(&[[0, 0], [1, 0]]));
}

#[test]
fn shares_add_up_and_nobody_gets_more_than_he_is_short() {
    let mut random = crate::random::Random::new(1);
    for _ in 0..2_000 {
        let writers = random.between(1, 127) as usize;
        let largest = random.pick(&[1, 2, 3, 10, 50_000]);
        let mut short = NOTHING;
        for short in short.as_flattened_mut().iter_mut().take(writers) {
            *short = random.between(0, largest) as i64;
        }
        let all: i64 = short.as_flattened().iter().sum();
        let exercised = random.between(0, all as u64) as i64;
        let assigned = shared_out(exercised, &short);
        assert_eq!(assigned.as_flattened().iter().sum::<i64>(), exercised);
        let mut places = short.as_flattened().iter().zip(assigned.as_flattened());
        assert!(places.all(|(short, assigned)| (0..=*short).contains(assigned)));
    }
}

#[test]
fn limits() {
    let mut book = book(CALL);
    run(&mut book, "T,0,1,2,1000,0");
    assert_eq!(refused(&mut book, "T,0,1,2,1001,0"), 6);
    assert_eq!(refused(&mut book, "T,0,1,2,0,0"), 6);
    run(&mut book, &"T,0,1,2,1000,0 ".repeat(99));
    assert_eq!(book.series[0].positions, in_0(&[0, 100_000, -100_000]));
    assert_eq!(refused(&mut book, "T,0,1,3,1,0"), 8);
    assert_eq!(refused(&mut book, "T,0,3,2,1,0"), 8);
    run(&mut book, "T,0,2,1,1,0");
    run(&mut book, "T,0,1,2,1,0");
}

#[test]
fn the_limit_is_on_both_sections_without_sign() {
    let mut book = book(CALL);
    // Account 1 is long in section 0 and short in section 1: 0 in all with sign, 100,000 without.
    run(&mut book, &"T,0,1,2,1000,0,0,1 T,0,3,1,1000,0,1,1 ".repeat(50));
    assert_eq!(book.series[0].positions, in_both(&[[0, 0], [50_000, -50_000], [0, -50_000], [0, 50_000]]));
    for row in ["T,0,1,4,1,0,0,0", "T,0,4,1,1,0,1,1"] {
        assert_eq!(refused(&mut book, row), 8, "{row}");
    }
    // What lowers it stands, in either section, and so does what brings it back.
    run(&mut book, "T,0,4,1,1,0,0,0 T,0,4,1,1,0,0,1 T,0,1,4,1,0,1,0 T,0,1,4,1,0,0,1");
    assert_eq!(book.series[0].positions[1], [50_000, -50_000]);
    // Each side by itself: the other one has room.
    assert_eq!(refused(&mut book, "T,0,1,5,1,0,0,1"), 8);
    assert_eq!(refused(&mut book, "T,0,5,1,1,0,0,1"), 8);
}

#[test]
fn the_limit_where_a_section_changes_its_sign() {
    let mut book = book(&format!("{CALL} T,0,3,1,10,0,0,1 T,0,1,4,990,0,0,0"));
    run(&mut book, &"T,0,1,2,1000,0,0,0 ".repeat(99));
    assert_eq!(book.series[0].positions[1], [99_990, -10]);
    assert_eq!(refused(&mut book, "T,0,1,5,21,0,1,0"), 8);
    run(&mut book, "T,0,1,5,20,0,1,0");
    assert_eq!(book.series[0].positions[1], [99_990, 10]);
    assert_eq!(refused(&mut book, "T,0,1,5,1,0,1,0"), 8);
    assert_eq!(refused(&mut book, "T,0,5,1,21,0,0,1"), 8);
    run(&mut book, "T,0,5,1,20,0,0,1");
    assert_eq!(book.series[0].positions[1], [99_990, -10]);
}

// The false friends of RULES, "Values and splits".

#[test]
fn the_evening_price_is_valued_with_todays_coefficient() {
    let mut book = book(&format!("{CALL} T,0,0,1,1,100 M,0,1000,0,100000 V M,0,1000,0,200000"));
    // n × V(p) − B × V(b) is 0 with one c; yesterday's c would leave 1000.
    assert_eq!(session(&mut book, "V").money, first(&[]));
}

#[test]
fn the_intraday_price_counts_on_the_last_day() {
    let mut book = book("L,GAZR-3.23M150323CA17000,100,0 T,0,0,1,1,100 M,0,300,0,100000");
    assert_eq!(session(&mut book, "I").money, first(&[200, -200]));
    run(&mut book, "M,0,300,0,100000");
    // VM is 0 × V(300) − V(100).
    assert_eq!(session(&mut book, "V").money, first(&[-300, 300]));
    assert_eq!(book.cash, first(&[-100, 100]));
}

// The refusals of each event, and their order.

#[test]
fn list_refusals() {
    let mut book = book("V V V");
    for row in [
        "L,GAZR-3.23M150323CA17000,0,5",
        "L,GAZR-3.23M150323CA17000,10001,5",
        "L,GAZR-3.23M150323CA17000,100,2",
        "L,GAZR-3.23M150323CA17000,100,1000",
        "L,GAZR-3.23M150323CA17000,999999999999999999,5",
        "L,GAZR-3.23M150323CA17000,100,999999999999999999",
    ] {
        assert_eq!(refused(&mut book, row), 10);
    }
    let terms =
        |strike| Event::List { option: OptionType::Put, category: Category::European, strike, tick: 1, last_day: 9 };
    assert_eq!(book.apply(terms(0)), Err(Refusal::Terms));
    assert_eq!(book.apply(terms(10_000_001)), Err(Refusal::Terms));
    assert_eq!(book.apply(terms(10_000_000)), Ok(Done::Listed(0)));
    assert_eq!(apply(&mut book, "L,GAZR-3.23M150323CA17000,1,3"), Ok(Done::Listed(1)));
    assert_eq!(apply(&mut book, "L,GAZR-3.23M150323CA17000,10000,999"), Ok(Done::Listed(2)));
    run(&mut book, &format!("{CALL} ").repeat(5));
    assert_eq!(refused(&mut book, CALL), 11);
    assert_eq!(refused(&mut book, "L,GAZR-3.23M150323CA17000,0,5"), 10);
}

#[test]
fn numbers_of_expired_series_are_not_given_out_again() {
    let mut book = book("L,GAZR-3.23M150323CA17000,100,0 M,0,0,0,100000 V");
    assert_eq!(apply(&mut book, CALL), Ok(Done::Listed(1)));
    run(&mut book, &format!("{CALL} ").repeat(6));
    assert_eq!(refused(&mut book, CALL), 11);
}

#[test]
fn trade_refusals_in_their_order() {
    let mut book = book(&format!("L,GAZR-3.23M150323CA17000,100,0 {CALL} M,0,0,0,100000 M,1,0,0,100000 V"));
    // Each row mends the first fault of the one before.
    for (row, number) in [
        ("T,2,64,64,1001,1000050", 2),
        ("T,255,64,64,1001,1000050", 2),
        ("T,300,64,64,1001,1000050", 2),
        ("T,0,64,64,1001,1000050", 3),
        ("T,1,64,64,1001,1000050", 4),
        ("T,1,300,1,1001,1000050", 4),
        ("T,1,1,64,1001,1000050", 4),
        ("T,1,1,1,1001,1000050", 5),
        ("T,1,1,2,1001,1000050", 6),
        ("T,1,1,2,1000,1000050", 7),
        ("T,1,1,2,1000,1000100", 7),
        ("T,1,1,2,1000,150", 7),
    ] {
        assert_eq!(refused(&mut book, row), number, "{row}");
    }
    run(&mut book, &"T,1,1,2,1000,1000000 ".repeat(100));
    run(&mut book, &"T,1,3,4,1,0 ".repeat(156));
    assert_eq!(refused(&mut book, "T,1,1,2,1,50"), 7);
    assert_eq!(refused(&mut book, "T,1,1,2,1,0"), 8);
    assert_eq!(refused(&mut book, "T,1,3,4,1,0"), 9);
    for row in ["T,1,1,2,1,50,2,0", "T,1,1,2,1,0,0,2", "T,1,3,4,1,0,2,2"] {
        assert_eq!(refused(&mut book, row), 23, "{row}");
    }
}

#[test]
fn unknown_sections_come_directly_behind_unknown_accounts() {
    let mut book = book(&format!("L,GAZR-3.23M150323CA17000,100,0 {CALL} M,0,0,0,100000 M,1,0,0,100000 V"));
    for section in ["2", "3", "10", "256", "257", "4294967296", "999999999999999999"] {
        for (row, number) in [
            ("T,2,64,64,1001,1000050,SECTION,SECTION", 2),
            ("T,0,64,64,1001,1000050,SECTION,SECTION", 3),
            ("T,1,64,1,1001,1000050,SECTION,0", 4),
            // Both accounts come before both sections.
            ("T,1,64,1,1001,1000050,0,SECTION", 4),
            ("T,1,1,64,1001,1000050,SECTION,0", 4),
            ("T,1,1,300,1001,1000050,0,SECTION", 4),
            ("T,1,1,1,1001,1000050,SECTION,0", 23),
            ("T,1,1,1,1001,1000050,1,SECTION", 23),
            ("T,1,1,1,1001,1000050,SECTION,SECTION", 23),
            ("T,1,1,2,1,0,SECTION,0", 23),
            ("T,1,1,2,1,0,1,SECTION", 23),
            ("X,2,64,6,SECTION", 2),
            ("X,0,64,6,SECTION", 3),
            ("X,1,64,6,SECTION", 4),
            ("X,1,1,6,SECTION", 23),
            ("X,1,1,0,SECTION", 23),
            ("D,2,64,SECTION", 2),
            ("D,0,64,SECTION", 3),
            ("D,1,64,SECTION", 4),
            ("D,1,1,SECTION", 23),
        ] {
            let row = row.replace("SECTION", section);
            assert_eq!(refused(&mut book, &row), number, "{row}");
        }
    }
    // Buyer and seller are accounts, so that a trade between its own sections is an account's own trade.
    for row in ["T,1,1,1,1,0,0,0", "T,1,1,1,1,0,0,1", "T,1,1,1,1,0,1,0", "T,1,1,1,1,0,1,1", "T,1,1,1,1001,50,0,1"] {
        assert_eq!(refused(&mut book, row), 5, "{row}");
    }
}

#[test]
fn the_blotter_is_one_for_all_series_and_free_again_each_day() {
    let mut book = book(&format!("{CALL} {CALL}"));
    run(&mut book, &"T,0,1,2,1,0 T,1,1,2,1,0 ".repeat(128));
    assert_eq!(refused(&mut book, "T,0,1,2,1,0"), 9);
    run(&mut book, "M,0,0,0,100000 M,1,0,0,100000 I");
    assert_eq!(refused(&mut book, "T,1,1,2,1,0"), 9);
    run(&mut book, "M,0,0,0,100000 M,1,0,0,100000 V");
    run(&mut book, &"T,0,1,2,1,0 ".repeat(256));
    assert_eq!(refused(&mut book, "T,0,1,2,1,0"), 9);
}

#[test]
fn exercise_refusals_in_their_order() {
    let mut book =
        book("L,GAZR-3.23M150323CA17000,100,0 L,GAZR-3.23M150323CE17000,100,2 M,0,0,0,100000 M,1,0,0,100000 V");
    run(&mut book, "T,1,1,2,5,0");
    for (row, number) in [
        ("X,2,64,6", 2),
        ("X,0,64,6", 3),
        ("X,1,64,6", 4),
        ("X,1,1,6", 12),
        ("X,1,1,0", 12),
        ("X,1,2,1", 12),
        ("D,2,64", 2),
        ("D,0,64", 3),
        ("D,1,64", 4),
        ("D,1,1", 12),
    ] {
        assert_eq!(refused(&mut book, row), number, "{row}");
    }
    run(&mut book, "M,1,0,0,100000 V X,1,1,5 X,1,1,0 X,1,2,0 X,1,3,0 D,1,1 D,1,2 D,1,3");
    assert_eq!(refused(&mut book, "X,1,1,6"), 13);
    assert_eq!(refused(&mut book, "X,1,2,1"), 13);
    assert_eq!(refused(&mut book, "X,1,3,999999999999999999"), 13);
}

#[test]
fn unknown_sections_come_before_the_day_and_the_position() {
    let mut book = book("L,GAZR-3.23M150323CE17000,100,1 T,0,1,2,5,0");
    for row in ["X,0,1,6,2", "X,0,1,0,2", "D,0,1,2"] {
        assert_eq!(refused(&mut book, row), 23, "{row}");
    }
    for row in ["X,0,1,6,1", "X,0,1,0,1", "D,0,1,1"] {
        assert_eq!(refused(&mut book, row), 12, "{row}");
    }
    run(&mut book, "M,0,0,0,100000 V");
    assert_eq!(refused(&mut book, "X,0,1,6,2"), 23);
}

#[test]
fn a_request_is_held_against_its_own_section() {
    let mut book = book(&format!("{CALL} T,0,1,2,5,0,0,1 T,0,1,2,7,0,1,1 T,0,2,3,4,0,0,0"));
    assert_eq!(book.series[0].positions, in_both(&[[0, 0], [5, 7], [4, -12], [-4, 0]]));
    for row in ["X,0,1,6", "X,0,1,6,0", "X,0,1,8,1", "X,0,1,12,1", "X,0,2,1,1", "X,0,2,5,0", "X,0,3,1,1"] {
        assert_eq!(refused(&mut book, row), 13, "{row}");
    }
    run(&mut book, "X,0,1,5,0 X,0,1,7,1 X,0,2,4,0 X,0,2,0,1 X,0,3,0,1");
    assert_eq!(book.series[0].requests, in_both(&[[0, 0], [5, 7], [4, 0]]));
}

#[test]
fn mark_refusals_in_their_order() {
    let mut book =
        book("L,GAZR-3.23M150323CA17000,100,0 L,GAZR-3.23M150323CA17000,1,9 L,GAZR-3.23M150323CA17000,10000,9");
    run(&mut book, "M,0,0,0,100000 M,1,0,0,100000 M,2,0,0,100000 V");
    for (row, number) in [
        ("M,3,1000001,0,0", 2),
        ("M,0,1000001,0,0", 3),
        ("M,1,1000001,0,0", 7),
        ("M,1,0,10000001,0", 7),
        ("M,1,0,0,0", 14),
        ("M,1,0,0,200000001", 14),
        ("M,1,0,0,999999999999999999", 14),
        // c is 100 × W here.
        ("M,1,0,0,2000001", 14),
        // c is W / 100 here.
        ("M,2,0,0,49", 14),
    ] {
        assert_eq!(refused(&mut book, row), number, "{row}");
    }
    run(&mut book, "M,1,1000000,10000000,2000000 M,1,7,0,1 M,2,0,0,50 M,2,0,0,200000000");
    // A mark's option price needs to be no multiple of R.
    run(&mut book, "M,2,1,0,100000");
}

#[test]
fn session_refusals_in_their_order() {
    let mut book = book(&format!("{CALL} {CALL} {CALL} M,0,0,0,100000"));
    assert_eq!(apply(&mut book, "I"), Err(Refusal::NoMark(1)));
    assert_eq!(apply(&mut book, "V"), Err(Refusal::NoMark(1)));
    run(&mut book, "M,1,0,0,100000");
    assert_eq!(apply(&mut book, "I"), Err(Refusal::NoMark(2)));
    run(&mut book, "M,2,0,0,100000 I");
    assert_eq!(refused(&mut book, "I"), 15);
    // The intraday session has used the marks.
    assert_eq!(apply(&mut book, "V"), Err(Refusal::NoMark(0)));
    run(&mut book, "M,0,0,0,100000 M,1,0,0,100000 M,2,0,0,100000");
    assert_eq!(refused(&mut book, "I"), 15);
    run(&mut book, "V");
    assert_eq!(apply(&mut book, "I"), Err(Refusal::NoMark(0)));
}

#[test]
fn sessions_without_live_series() {
    let mut book = Book::new();
    assert_eq!(session(&mut book, "I"), Session { money: [0; ACCOUNTS], futures: vec![] });
    assert_eq!(refused(&mut book, "I"), 15);
    assert_eq!(session(&mut book, "V"), Session { money: [0; ACCOUNTS], futures: vec![] });
    run(&mut book, "I");
    assert_eq!(book.day, 1);
    // An expired series needs no mark.
    run(&mut book, "L,GAZR-3.23M150323CA17000,100,1 M,0,0,0,100000 V I V");
    assert_eq!(book.day, 3);
}

#[test]
fn after_the_last_evening() {
    let mut book = book(&"V ".repeat(999));
    assert_eq!(book.day, 999);
    run(&mut book, "L,GAZR-3.23M150323CA17000,100,999 T,0,1,2,3,0 M,0,0,0,100000 I M,0,0,0,100000 V");
    assert_eq!(book.day, 1000);
    for row in
        [CALL, "L,GAZR-3.23M150323CA17000,0,0", "T,0,1,2,3,0", "T,9,1,1,0,0", "X,0,1,1", "D,0,1", "M,0,0,0,0", "I", "V"]
    {
        assert_eq!(refused(&mut book, row), 1, "{row}");
    }
    for row in ["T,0,1,2,3,0,1,1", "T,0,1,2,3,0,2,0", "X,0,1,1,2", "D,0,1,2"] {
        assert_eq!(refused(&mut book, row), 1, "{row}");
    }
}

// The sessions.

#[test]
fn the_first_evening_knows_no_evening_before() {
    let mut book = book(&format!("{CALL} T,0,0,1,10,500 M,0,700,0,100000"));
    assert_eq!(session(&mut book, "V").money, first(&[2000, -2000]));
    run(&mut book, "T,0,2,0,4,600 M,0,650,0,100000");
    // 6 × 650 − 10 × 700 + 4 × 600; −10 × 650 + 10 × 700; 4 × 650 − 4 × 600.
    assert_eq!(session(&mut book, "V").money, first(&[-700, 500, 200]));
}

#[test]
fn an_intraday_session_changes_no_evening_cash() {
    let day = |intraday: &str| {
        let mut book = book(&format!("{CALL} T,0,0,1,10,500 {intraday} T,0,2,0,4,600 M,0,650,0,100000 V"));
        run(&mut book, "M,0,1,1,3333 V");
        book.cash
    };
    assert_eq!(day("M,0,900,0,123456 I"), day(""));
}

#[test]
fn a_series_listed_after_the_intraday_session_has_paid_nothing() {
    let mut book = book(&format!(
        "{CALL} T,0,0,1,1,100 M,0,300,0,100000 I {CALL} T,1,0,1,1,100 M,0,300,0,100000 M,1,500,0,100000"
    ));
    assert_eq!(session(&mut book, "V").money, first(&[400, -400]));
}

#[test]
fn a_later_mark_replaces_an_earlier_one() {
    let mut book = book(&format!("{CALL} T,0,0,1,1,100 M,0,300,0,100000 M,0,400,0,100000"));
    assert_eq!(session(&mut book, "V").money, first(&[300, -300]));
}

#[test]
fn american_exercise_before_the_last_day() {
    let mut book = book(&format!("{CALL} T,0,0,1,10,0 X,0,0,9 X,0,0,4 M,0,300,0,100000"));
    let session = session(&mut book, "V");
    // n is the position after exercise.
    assert_eq!(session.money, first(&[6 * 300, -6 * 300]));
    assert_eq!(session.futures, [(0, 0, 4), (0, 1, -4)]);
    assert_eq!(book.series[0].positions, in_0(&[6, -6]));
    // Requests last a day.
    run(&mut book, "M,0,300,0,100000");
    assert_eq!(self::session(&mut book, "V").futures, []);
}

#[test]
fn a_request_stays_when_the_position_shrinks() {
    let mut book = book(&format!("{CALL} T,0,0,1,10,0 X,0,0,9 T,0,2,0,7,0 M,0,300,0,100000"));
    assert_eq!(session(&mut book, "V").futures, [(0, 0, 3), (0, 1, -3)]);
    // A position gone short exercises nothing.
    let mut book = self::book(&format!("{CALL} T,0,0,1,10,0 X,0,0,9 T,0,2,0,17,0 M,0,300,0,100000"));
    assert_eq!(session(&mut book, "V").futures, []);
}

#[test]
fn in_at_and_out_of_the_money() {
    // Of 5 contracts: strike 17000, futures price below, at and above it.
    for (kind, futures, exercised) in [
        ("CA", 1_699_999, 0),
        ("CA", 1_700_000, 3),
        ("CA", 1_700_001, 5),
        ("PE", 1_699_999, -5),
        ("PE", 1_700_000, -2),
        ("PE", 1_700_001, 0),
    ] {
        let mut book = book(&format!("L,GAZR-3.23M150323{kind}17000,100,0 T,0,0,1,5,0 M,0,0,{futures},100000 V"));
        assert_eq!(book.series[0].futures, in_0(&[exercised, -exercised]), "{kind} {futures}");
        assert_eq!(book.series[0].positions, in_0(&[]));
        assert_eq!(refused(&mut book, "X,0,0,0"), 3);
    }
}

#[test]
fn requests_and_declines_on_the_last_day() {
    // Of 5 calls at the money 3 are exercised without a word.
    for (rows, exercised) in [
        ("", 3),
        ("X,0,0,2", 3),
        ("X,0,0,4", 4),
        ("X,0,0,4 X,0,0,0", 3),
        ("D,0,0", 0),
        ("X,0,0,4 D,0,0", 0),
        ("D,0,0 X,0,0,4", 4),
        ("D,0,0 X,0,0,0", 3),
        ("D,0,1", 3),
    ] {
        let mut book = book(&format!("L,GAZR-3.23M150323CE17000,100,0 T,0,0,1,5,0 {rows} M,0,0,1700000,100000"));
        session(&mut book, "V");
        assert_eq!(book.series[0].futures, in_0(&[exercised, -exercised]), "{rows}");
    }
}

#[test]
fn futures_by_series_and_account() {
    let mut book = book(&format!("{CALL} L,GAZR-3.23M150323PA17000,100,5 T,0,5,0,2,0 T,1,1,9,2,0 X,0,5,2 X,1,1,1"));
    run(&mut book, "M,0,0,0,100000 M,1,0,0,100000");
    assert_eq!(session(&mut book, "V").futures, [(0, 0, -2), (0, 5, 2), (1, 1, -1), (1, 9, 1)]);
}

// Periods.

/// The period in the answer of a trade that is carried out; its record has joined the blotter with the same.
fn period(book: &mut Book, row: &str) -> u8 {
    let mut blotter = book.blotter.clone();
    let Ok(Done::Traded(period)) = apply(book, row) else { panic!("{row} is no trade that is carried out") };
    let Some(&last) = book.blotter.last() else { panic!("{row} has no record") };
    assert_eq!(last.period, period, "{row}");
    blotter.push(last);
    assert_eq!(book.blotter, blotter, "{row} changed another record");
    period
}

fn periods(book: &Book) -> Vec<u8> {
    book.blotter.iter().map(|trade| trade.period).collect()
}

#[test]
fn period_1_then_2_and_1_again_after_the_evening() {
    let mut book = book(&format!("{CALL} {CALL}"));
    let marks = "M,0,0,0,100000 M,1,0,0,100000";
    for _ in 0..3 {
        assert_eq!(period(&mut book, "T,0,1,2,1,0"), 1);
        run(&mut book, marks);
        assert_eq!(period(&mut book, "T,1,2,1,1,0,1,0"), 1);
        run(&mut book, "I");
        assert_eq!(period(&mut book, "T,1,1,2,1,0"), 2);
        run(&mut book, marks);
        assert_eq!(period(&mut book, "T,0,2,1,1,0,0,1"), 2);
        // The session has left the records before it as they were.
        assert_eq!(periods(&book), [1, 1, 2, 2]);
        run(&mut book, "V");
        assert_eq!(periods(&book), []);
    }
    // A day without an intraday session has period 1 alone.
    for _ in 0..2 {
        assert_eq!(period(&mut book, "T,0,1,2,1,0"), 1);
        run(&mut book, &format!("{marks} V"));
    }
}

#[test]
fn a_refused_intraday_session_begins_no_period() {
    let mut book = book(&format!("{CALL} {CALL}"));
    assert_eq!(refused(&mut book, "I"), 16);
    assert_eq!(period(&mut book, "T,0,1,2,1,0"), 1);
    run(&mut book, "M,0,0,0,100000");
    assert_eq!(refused(&mut book, "I"), 16);
    assert_eq!(period(&mut book, "T,1,1,2,1,0"), 1);
    run(&mut book, "M,1,0,0,100000 I");
    assert_eq!(period(&mut book, "T,0,1,2,1,0"), 2);
    // A second one changes nothing, with marks and without.
    assert_eq!(refused(&mut book, "I"), 15);
    assert_eq!(period(&mut book, "T,0,1,2,1,0"), 2);
    run(&mut book, "M,0,0,0,100000 M,1,0,0,100000");
    assert_eq!(refused(&mut book, "I"), 15);
    assert_eq!(period(&mut book, "T,1,1,2,1,0"), 2);
    assert_eq!(periods(&book), [1, 1, 2, 2, 2]);
}

#[test]
fn a_refused_evening_ends_no_day() {
    let mut book = book(&format!("{CALL} T,0,1,2,1,0"));
    assert_eq!(refused(&mut book, "V"), 16);
    assert_eq!(period(&mut book, "T,0,1,2,1,0"), 1);
    run(&mut book, "M,0,0,0,100000 I");
    assert_eq!(refused(&mut book, "V"), 16);
    assert_eq!(period(&mut book, "T,0,1,2,1,0"), 2);
    assert_eq!(periods(&book), [1, 1, 2]);
}

#[test]
fn an_intraday_session_without_live_series_counts() {
    // None is listed,
    let mut book = book("I");
    run(&mut book, CALL);
    assert_eq!(period(&mut book, "T,0,1,2,1,0"), 2);
    // and the evening without any ends the day.
    let mut book = self::book(&format!("I V {CALL}"));
    assert_eq!(period(&mut book, "T,0,1,2,1,0"), 1);
    // All have expired.
    let mut book = self::book("L,GAZR-3.23M150323CA17000,100,0 T,0,1,2,1,0 M,0,0,0,100000 V I");
    assert_eq!(refused(&mut book, "T,0,1,2,1,0"), 3);
    run(&mut book, CALL);
    assert_eq!(period(&mut book, "T,1,1,2,1,0"), 2);
    assert_eq!(refused(&mut book, "I"), 15);
    assert_eq!(period(&mut book, "T,1,1,2,1,0"), 2);
}

#[test]
fn a_refused_trade_has_no_record_in_either_period() {
    let mut book = book(CALL);
    run(&mut book, &"T,0,1,2,1000,0 ".repeat(100));
    run(&mut book, &"T,0,3,4,1,0 ".repeat(155));
    for session in ["", "M,0,0,0,100000 I"] {
        run(&mut book, session);
        for (row, number) in [
            ("T,1,1,2,1,0", 2),
            ("T,0,64,2,1,0", 4),
            ("T,0,1,2,1,0,2,0", 23),
            ("T,0,1,1,1,0", 5),
            ("T,0,1,2,0,0", 6),
            ("T,0,1,2,1,1", 7),
            ("T,0,1,2,1,0", 8),
        ] {
            assert_eq!(refused(&mut book, row), number, "{row}");
        }
    }
    // The last place of the blotter is the only one that is taken in period 2.
    assert_eq!(period(&mut book, "T,0,3,4,1,0"), 2);
    assert_eq!(refused(&mut book, "T,0,3,4,1,0"), 9);
    assert_eq!(periods(&book), [[1; 255].as_slice(), &[2]].concat());
}

// Sections.

#[test]
fn half_is_taken_of_each_section() {
    for (kind, sign, of_5, of_10) in [("CA", 1, 3, 5), ("PE", -1, 2, 5)] {
        let day = |trades: &str| {
            let mut book = book(&format!("L,GAZR-3.23M150323{kind}17000,100,0 {trades} M,0,0,1700000,100000"));
            (session(&mut book, "V").futures, book.series[0].futures)
        };
        let (arisen, futures) = day("T,0,0,1,5,0,0,0 T,0,0,1,5,0,1,0");
        assert_eq!(arisen, [(0, 0, 2 * sign * of_5), (0, 1, -2 * sign * of_5)]);
        assert_eq!(futures, in_both(&[[sign * of_5, sign * of_5], [-2 * sign * of_5, 0]]));
        let (arisen, futures) = day("T,0,0,1,10,0,1,0");
        assert_eq!(arisen, [(0, 0, sign * of_10), (0, 1, -sign * of_10)]);
        assert_eq!(futures, in_both(&[[0, sign * of_10], [-sign * of_10, 0]]));
    }
}

#[test]
fn a_holder_is_assigned_as_a_writer_in_his_other_section() {
    // He holds 4 and is short 6, another is short 4 and a third holds 6. Of 4 exercised, 4 × 6, 4 / 10 is 2.4, 1.6.
    let mut book = book(&format!("{CALL} T,0,0,1,4,0,0,0 T,0,2,0,6,0,1,1 X,0,0,4,0 M,0,0,0,100000"));
    assert_eq!(book.series[0].positions, in_both(&[[4, -6], [-4, 0], [0, 6]]));
    let session = session(&mut book, "V");
    assert_eq!(book.series[0].futures, in_both(&[[4, -2], [-2, 0], [0, 0]]));
    assert_eq!(book.series[0].positions, in_both(&[[0, -4], [-2, 0], [0, 6]]));
    assert_eq!(session.futures, [(0, 0, 2), (0, 1, -2)]);
}

#[test]
fn futures_that_cancel_out_have_no_line() {
    // In the money all holders exercise and all writers are assigned: account 0 in section 1 by the same count.
    let mut book = book("L,GAZR-3.23M150323CA17000,100,0 T,0,0,1,7,0,0,0 T,0,2,0,7,0,0,1 M,0,0,1700001,100000");
    assert_eq!(session(&mut book, "V").futures, [(0, 1, -7), (0, 2, 7)]);
    assert_eq!(book.series[0].futures, in_both(&[[7, -7], [-7, 0], [7, 0]]));
}

#[test]
fn requests_and_declines_leave_the_other_section_alone() {
    // Of 5 calls at the money 3 are exercised without a word, in each section.
    for (rows, exercised) in [
        ("", [3, 3]),
        ("X,0,0,4,0", [4, 3]),
        ("X,0,0,4,1", [3, 4]),
        ("X,0,0,4,1 X,0,0,5,0", [5, 4]),
        ("D,0,0,0", [0, 3]),
        ("D,0,0,1", [3, 0]),
        ("D,0,0", [0, 3]),
        ("X,0,0,4,1 D,0,0,0", [0, 4]),
        ("X,0,0,4,1 D,0,0,1", [3, 0]),
        ("D,0,0,0 D,0,0,1 X,0,0,0,1", [0, 3]),
        ("D,0,0,0 X,0,0,4,1", [0, 4]),
        ("D,0,1,1", [3, 3]),
    ] {
        let trades = "T,0,0,1,5,0,0,0 T,0,0,1,5,0,1,0";
        let mut book = book(&format!("L,GAZR-3.23M150323CE17000,100,0 {trades} {rows} M,0,0,1700000,100000 V"));
        let all = exercised.iter().sum::<i64>();
        assert_eq!(book.series[0].futures, in_both(&[exercised, [-all, 0]]), "{rows}");
        assert_eq!(refused(&mut book, "D,0,0,1"), 3);
    }
}

#[test]
fn money_is_the_accounts_whatever_the_sections() {
    let day = |sections: [&str; 4]| {
        let [a, b, c, d] = sections;
        let mut book = book(&format!(
            "{CALL} T,0,0,1,10,500{a} T,0,2,0,4,600{b} M,0,650,0,100000 I T,0,0,2,3,700{c} M,0,800,0,90000 V"
        ));
        let first_day = book.cash;
        run(&mut book, &format!("T,0,1,0,5,900{d} M,0,750,0,100000 V"));
        (first_day, book.cash)
    };
    let in_section_0 = day([""; 4]);
    assert_ne!(in_section_0.0, first(&[]));
    for sections in [
        [",0,0", ",0,0", ",0,0", ",0,0"],
        [",1,1", ",1,1", ",1,1", ",1,1"],
        [",0,1", ",0,1", ",1,0", ",0,1"],
        [",1,0", ",1,0", "", ",0,1"],
    ] {
        assert_eq!(day(sections), in_section_0, "{sections:?}");
    }
}

#[test]
fn each_section_starts_the_day_with_its_own_position() {
    let book = book(&format!("{CALL} T,0,0,1,10,500,0,0 T,0,1,0,4,500,1,1 M,0,700,0,100000 V"));
    assert_eq!(book.series[0].opening, in_both(&[[10, -4], [-10, 4]]));
    assert_eq!(book.series[0].positions, book.series[0].opening);
    // 6 × 700 − 6 × 500.
    assert_eq!(book.cash, first(&[1200, -1200]));
}

// Open interest.

/// The open interest of series 0: it is what its holders have, and what its writers are short.
fn interest(book: &Book) -> i64 {
    let positions = book.series[0].positions.as_flattened();
    let held: i64 = positions.iter().filter(|&&position| position > 0).sum();
    let short: i64 = positions.iter().filter(|&&position| position < 0).sum();
    assert_eq!((book.series[0].open_interest, book.open_interest(0)), (held, -short));
    held
}

/// Rows that are carried out, each with the open interest of series 0 after it.
fn assert_interest(book: &mut Book, rows: &[(&str, i64)]) {
    for &(row, expected) in rows {
        run(book, row);
        assert_eq!(interest(book), expected, "{row}");
    }
}

#[test]
fn a_trade_that_opens_on_both_sides_raises_the_open_interest() {
    let mut book = book(CALL);
    assert_eq!(interest(&book), 0);
    // From nothing, of two others, and of a holder and a writer who have some.
    assert_interest(&mut book, &[("T,0,1,2,10,0", 10), ("T,0,3,4,5,0", 15), ("T,0,1,2,3,0", 18), ("T,0,3,2,1,0", 19)]);
    assert_eq!(book.series[0].positions, in_0(&[0, 13, -14, 6, -5]));
}

#[test]
fn contracts_passed_from_holder_to_holder_leave_it() {
    let mut book = book(&format!("{CALL} T,0,1,2,10,0"));
    // To one who has none, to one who has some, and all that the first one has left.
    assert_interest(&mut book, &[("T,0,3,1,4,0", 10), ("T,0,3,1,1,0", 10), ("T,0,4,1,5,0", 10)]);
    assert_eq!(book.series[0].positions, in_0(&[0, 0, -10, 5, 5]));
}

#[test]
fn contracts_passed_from_writer_to_writer_leave_it() {
    let mut book = book(&format!("{CALL} T,0,1,2,10,0"));
    assert_interest(&mut book, &[("T,0,2,3,4,0", 10), ("T,0,2,3,1,0", 10), ("T,0,2,4,5,0", 10)]);
    assert_eq!(book.series[0].positions, in_0(&[0, 10, 0, -5, -5]));
}

#[test]
fn a_trade_that_closes_on_both_sides_lowers_it() {
    let mut book = book(&format!("{CALL} T,0,1,2,10,0 T,0,3,4,5,0"));
    assert_interest(&mut book, &[("T,0,2,1,4,0", 11), ("T,0,4,1,5,0", 6), ("T,0,2,3,5,0", 1), ("T,0,2,1,1,0", 0)]);
    assert_eq!(book.series[0].positions, in_0(&[]));
}

#[test]
fn a_trade_across_0() {
    // Account 1 holds 10, account 2 is short 10, account 3 holds 4 and account 4 is short 4.
    for (row, positions, after) in [
        // Both change sides: 10 are closed and 5 opened.
        ("T,0,2,1,15,0", [0, -5, 5, 4, -4, 0], 9),
        ("T,0,2,1,20,0", [0, -10, 10, 4, -4, 0], 14),
        ("T,0,2,3,11,0", [0, 10, 1, -7, -4, 0], 11),
        // The buyer does, the seller opens: 5 are opened; or has enough to sell: 4 are closed.
        ("T,0,2,5,15,0", [0, 10, 5, 4, -4, -15], 19),
        ("T,0,4,1,6,0", [0, 4, -10, 4, 2, 0], 10),
        // The seller does, the buyer opens, or is short enough to buy.
        ("T,0,5,1,15,0", [0, -5, -10, 4, -4, 15], 19),
        ("T,0,2,3,6,0", [0, 10, -4, -2, -4, 0], 10),
    ] {
        let mut book = book(&format!("{CALL} T,0,1,2,10,0 T,0,3,4,4,0"));
        assert_interest(&mut book, &[(row, after)]);
        assert_eq!(book.series[0].positions, in_0(&positions), "{row}");
    }
}

#[test]
fn a_section_counts_though_the_other_is_short_as_much() {
    let mut book = book(CALL);
    assert_interest(&mut book, &[("T,0,1,2,10,0,0,0", 10), ("T,0,2,1,10,0,0,1", 10)]);
    // No account has anything, both sections added.
    assert_eq!(book.series[0].positions, in_both(&[[0, 0], [10, -10]]));
    // In the sections of another account the same comes in the other order.
    assert_interest(&mut book, &[("T,0,4,3,7,0,0,1", 17), ("T,0,3,4,7,0,0,0", 17)]);
    assert_eq!(book.series[0].positions, in_both(&[[0, 0], [10, -10], [0, 0], [7, -7]]));
    // Each of account 1's sections is closed by itself, against one of account 3's.
    assert_interest(&mut book, &[("T,0,3,1,7,0,1,0", 10), ("T,0,1,3,7,0,1,0", 3)]);
    assert_eq!(book.series[0].positions, in_both(&[[0, 0], [3, -3]]));
}

#[test]
fn each_series_has_its_own() {
    let mut book = book(&format!("{CALL} {CALL} {CALL} T,1,1,2,10,0 T,2,1,2,7,0 T,2,2,1,3,0"));
    assert_eq!([0, 1, 2].map(|number| book.open_interest(number)), [0, 10, 4]);
    run(&mut book, "X,1,1,6 X,2,1,1 M,0,0,0,100000 M,1,0,0,100000 M,2,0,0,100000 V");
    assert_eq!([0, 1, 2].map(|number| book.open_interest(number)), [0, 4, 3]);
}

#[test]
fn exercise_on_request_lowers_it_in_the_evening() {
    let mut book = book(&format!("{CALL} T,0,1,2,10,0 T,0,3,2,4,0,1,1"));
    let mark = "M,0,0,0,100000";
    // A request by itself changes nothing, nor does an intraday session.
    assert_interest(&mut book, &[("X,0,1,6", 14), ("X,0,3,4,1", 14), (mark, 14), ("I", 14), (mark, 14), ("V", 4)]);
    assert_eq!(book.series[0].positions[1], [4, 0]);
    // Of a request above what is left of the position, what is left.
    assert_interest(&mut book, &[("X,0,1,4", 4), ("T,0,5,1,3,0", 4), (mark, 4), ("V", 3), (mark, 3), ("V", 3)]);
}

#[test]
fn expiry_takes_it_to_0_whatever_is_exercised() {
    // Of 5 and 4 calls: none, half of each, rounded up, and all.
    for (futures, exercised) in [(1_699_999, 0), (1_700_000, 5), (1_700_001, 9)] {
        let mut book = book("L,GAZR-3.23M150323CE17000,100,1 T,0,1,2,5,0 T,0,3,2,4,0,1,0");
        let mark: &str = &format!("M,0,0,{futures},100000");
        assert_interest(&mut book, &[(mark, 9), ("V", 9), (mark, 9), ("V", 0)]);
        assert_eq!(book.series[0].futures[2], [-exercised, 0]);
        assert_eq!(refused(&mut book, "T,0,1,2,1,0"), 3);
        assert_interest(&mut book, &[("V", 0)]);
    }
}

#[test]
fn no_other_event_changes_it() {
    let mut book = book("L,GAZR-3.23M150323CA17000,100,0 T,0,1,2,5,0");
    for row in [CALL, "X,0,1,3", "D,0,1", "X,0,1,0", "D,0,2,1", "M,0,7,1700000,100000", "M,1,7,0,100000", "I"] {
        assert_interest(&mut book, &[(row, 5)]);
    }
}

#[test]
fn a_refused_event_leaves_it() {
    let mut book = book(CALL);
    run(&mut book, &"T,0,1,2,1000,0 ".repeat(100));
    run(&mut book, &"T,0,3,4,1,0 ".repeat(156));
    assert_eq!(interest(&book), 100_156);
    for (row, number) in [
        ("T,1,3,4,1,0", 2),
        ("T,0,3,64,1,0", 4),
        ("T,0,3,4,1,0,2,0", 23),
        ("T,0,3,3,1,0", 5),
        ("T,0,3,4,1001,0", 6),
        ("T,0,3,4,1,50", 7),
        ("T,0,1,4,1,0", 8),
        ("T,0,3,2,1,0", 8),
        ("T,0,3,4,1,0", 9),
        ("X,0,3,157", 13),
        ("D,0,3", 12),
        ("M,0,0,0,0", 14),
        ("I", 16),
        ("V", 16),
    ] {
        assert_eq!(refused(&mut book, row), number, "{row}");
        assert_eq!(interest(&book), 100_156, "{row}");
    }
}

#[test]
fn it_can_be_looked_up_for_any_number() {
    let all = |book: &Book| -> Vec<i64> { (0..=255).map(|number| book.open_interest(number)).collect() };
    let with_first = |first: &[i64]| [first, &[0; 256][first.len()..]].concat();
    assert_eq!(all(&Book::new()), with_first(&[]));
    let mut book = book(&format!("L,GAZR-3.23M150323CA17000,100,0 {CALL} T,0,1,2,5,0 T,1,2,1,7,0"));
    assert_eq!(all(&book), with_first(&[5, 7]));
    run(&mut book, "M,0,0,0,100000 M,1,0,0,100000 V");
    assert_eq!(all(&book), with_first(&[0, 7]));
    run(&mut book, &format!("{CALL} ").repeat(6));
    run(&mut book, "T,7,1,2,3,0");
    assert_eq!(all(&book), with_first(&[0, 7, 0, 0, 0, 0, 0, 3]));
}

#[test]
fn it_is_0_when_the_book_is_finished() {
    let mut book = book(&"V ".repeat(999));
    run(&mut book, "L,GAZR-3.23M150323CA17000,100,999");
    assert_interest(&mut book, &[("T,0,1,2,5,0", 5), ("M,0,0,1700000,100000", 5), ("V", 0)]);
    assert_eq!(refused(&mut book, "T,0,1,2,5,0"), 1);
    assert_eq!(interest(&book), 0);
}

#[test]
fn the_largest_there_can_be() {
    let mut book = book("L,GAZR-3.23M150323CA17000,100,12");
    run(&mut book, &trades_to_the_limit());
    assert_eq!(interest(&book), 3_200_000);
    assert_interest(&mut book, &[("M,0,0,1700001,100000", 3_200_000), ("V", 0)]);
    let futures = array::from_fn(|account| [if account < 32 { 100_000 } else { -100_000 }, 0]);
    assert_eq!(book.series[0].futures, futures);
}

#[test]
fn assignment_divides_by_the_kept_number() {
    // Of 4 exercised, 4 × 6, 4 / 10 is 2.4, 1.6.
    let rows = format!("{CALL} T,0,1,2,6,0 T,0,1,3,4,0 X,0,1,4 M,0,0,0,100000");
    assert_eq!(book(&format!("{rows} V")).series[0].futures, in_0(&[0, 4, -2, -2]));
    // With a number that no list of events leaves there, 4 × 6, 4 / 24 is 1, 0.67, and each gets one that is left over.
    let mut other = book(&rows);
    other.series[0].open_interest = 24;
    run(&mut other, "V");
    assert_eq!(other.series[0].futures, in_0(&[0, 4, -2, -1]));
}
