//! 01, "Day view and statement": the printed text, byte for byte.

use harness::random::Random;
use harness::reference::statement::statement;

/// The fourteen lines of 01's example.
const OPENING: [&str; 14] = [
    "opens=2001-02",
    "rider=banked",
    "class=home",
    "nameplate=8000",
    "limit=9000",
    "assisted=no",
    "prices=30000,20000,10000,5000",
    "demand=0",
    "standby=0",
    "bypass=0",
    "credit=0",
    "distribution=0",
    "basic=1400",
    "minimum=0",
];

/// The printed month of 01's example.
const FEBRUARY: &str = "bill=2001-02 answer=0 own=0,0,0,0 out=0,0,0,0 in=0,0,0,0 \
    paid=0,0,0,0 forfeited=0,0,0,0 billed=0,44800,168000,56000 left=0,0,0,0 \
    energy=2856 due=4256\n";

fn opening() -> String {
    OPENING.join("\n") + "\n"
}

/// The example's opening with one line, counted from 1, in another's place.
fn opening_with(number: usize, line: &str) -> String {
    let mut lines = OPENING;
    lines[number - 1] = line;
    lines.join("\n") + "\n"
}

/// A month whose amounts are all 0.
fn refused(month: &str, answer: u32) -> String {
    format!(
        "bill={month} answer={answer} own=0,0,0,0 out=0,0,0,0 in=0,0,0,0 paid=0,0,0,0 \
         forfeited=0,0,0,0 billed=0,0,0,0 left=0,0,0,0 energy=0 due=0\n"
    )
}

/// A month without energy: only the basic charge is due.
fn idle(month: &str) -> String {
    refused(month, 0).replace("due=0", "due=1400")
}

fn assert_printed(input: impl AsRef<[u8]>, expected: &str) {
    let printed = statement(input.as_ref());
    assert_eq!(String::from_utf8_lossy(&printed), expected);
}

/// What follows the example's opening, and what is printed after `open=0`.
fn assert_after_opening(rest: &str, expected: &str) {
    assert_printed(opening() + rest, &format!("open=0\n{expected}"));
}

#[test]
fn the_worked_example() {
    let input = "opens=2001-02\nrider=banked\nclass=home\nnameplate=8000\nlimit=9000\n\
        assisted=no\nprices=30000,20000,10000,5000\ndemand=0\nstandby=0\nbypass=0\ncredit=0\n\
        distribution=0\nbasic=1400\nminimum=0\nbill=2001-02\ncritical=0\nrun=2688,100,0\n";
    let expected = "open=0\nbill=2001-02 answer=0 own=0,0,0,0 out=0,0,0,0 in=0,0,0,0 \
        paid=0,0,0,0 forfeited=0,0,0,0 billed=0,44800,168000,56000 left=0,0,0,0 \
        energy=2856 due=4256\n";
    assert_printed(input, expected);
    // The last line may lack its newline.
    assert_printed(input.trim_end(), expected);
}

#[test]
fn two_months_with_credit() {
    // February exports 20 × 50 Wh at discount. March, whose day 1 is critical,
    // has 16 critical quarters of 10 and 20 Wh, then 4 off-peak ones of 100 Wh:
    // own 160, 160 moved, 240 billed at 10,000, which is 2.4 cents.
    assert_after_opening(
        "bill=2001-02\ncritical=0\nrun=4,0,0\nrun=20,0,50\nrun=2664,0,0\n\
         bill=2001-03\ncritical=1\nrun=68,0,0\nrun=16,10,20\nrun=4,100,0\nrun=2888,0,0\n",
        "bill=2001-02 answer=0 own=0,0,0,0 out=0,0,0,0 in=0,0,0,0 paid=0,0,0,0 \
         forfeited=0,0,0,0 billed=0,0,0,0 left=0,0,0,1000 energy=0 due=1400\n\
         bill=2001-03 answer=0 own=160,0,0,0 out=160,0,0,0 in=0,0,160,0 paid=0,0,0,0 \
         forfeited=0,0,0,0 billed=0,0,240,0 left=0,0,0,1000 energy=2 due=1402\n",
    );
}

#[test]
fn bridge_and_june() {
    // Bridge: 20 × 50 Wh at discount are paid; 1,000 × 100,000 is 100 cents.
    let bridge = opening_with(2, "rider=bridge").replace("credit=0", "credit=100000");
    assert_printed(
        bridge + "bill=2001-02\ncritical=0\nrun=4,0,0\nrun=20,0,50\nrun=2664,0,0\n",
        "open=0\nbill=2001-02 answer=0 own=0,0,0,0 out=0,0,0,0 in=0,0,0,0 paid=0,0,0,1000 \
         forfeited=0,0,0,0 billed=0,0,0,0 left=0,0,0,0 energy=0 due=1300\n",
    );
    // Banked: May's 4 × 7 Wh off-peak are forfeited in June.
    let may = opening_with(1, "opens=2001-05");
    assert_printed(
        may + "bill=2001-05\ncritical=0\nrun=4,0,7\nrun=2972,0,0\n\
               bill=2001-06\ncritical=0\nrun=2880,0,0",
        "open=0\nbill=2001-05 answer=0 own=0,0,0,0 out=0,0,0,0 in=0,0,0,0 paid=0,0,0,0 \
         forfeited=0,0,0,0 billed=0,0,0,0 left=0,0,28,0 energy=0 due=1400\n\
         bill=2001-06 answer=0 own=0,0,0,0 out=0,0,0,0 in=0,0,0,0 paid=0,0,0,0 \
         forfeited=0,0,28,0 billed=0,0,0,0 left=0,0,0,0 energy=0 due=1400\n",
    );
}

#[test]
fn each_line_reaches_its_amount() {
    // The bridge bill worked in bills.rs, with nothing standing before: due is
    // 3,364 less the 34 granted.
    let lines = [
        "opens=2001-07",
        "rider=bridge",
        "class=home",
        "nameplate=8001",
        "limit=9000",
        "assisted=yes",
        "prices=30000,20000,10000,5000",
        "demand=500000",
        "standby=172350",
        "bypass=2000",
        "credit=3350",
        "distribution=4493",
        "basic=1400",
        "minimum=2200",
        "bill=2001-07",
        "critical=4",
        "run=4,0,0",
        "run=1,0,10000",
        "run=47,0,0",
        "run=1,100000,0",
        "run=95,0,0",
        "run=1,600,100",
        "run=95,0,0",
        "run=1,0,1000",
        "run=2731,0,0",
    ];
    let expected = "open=0\nbill=2001-07 answer=0 own=0,100,0,0 out=1000,0,0,0 in=0,500,500,0 \
        paid=0,0,0,10000 forfeited=0,0,0,0 billed=0,0,99500,0 left=0,0,0,0 \
        energy=995 due=3330\n";
    let input = lines.join("\n");
    assert_printed(&input, expected);
    // An assisted customer of 8,000 W is spared the shortfall of 353; bypass is
    // 16 cents as before.
    let spared = input.replace("nameplate=8001", "nameplate=8000");
    assert_printed(&spared, &expected.replace("due=3330", "due=2977"));
    let not_assisted = spared.replace("assisted=yes", "assisted=no");
    assert_printed(&not_assisted, expected);
    // A business of 100,001 W pays 17,235 cents of standby.
    let business = opening_with(3, "class=business")
        .replace("nameplate=8000", "nameplate=100001")
        .replace("limit=9000", "limit=100001")
        .replace("standby=0", "standby=172350");
    assert_printed(
        business + "bill=2001-02\ncritical=0\nrun=2688,0,0\n",
        &format!(
            "open=0\n{}",
            idle("2001-02").replace("due=1400", "due=18635")
        ),
    );
}

#[test]
fn openings_numbers() {
    let printed_for = |line: usize, text: &str, number: u32| {
        assert_printed(opening_with(line, text), &format!("open={number}\n"));
    };
    printed_for(1, "opens=2099-12", 0);
    printed_for(1, "opens=2100-01", 7);
    printed_for(4, "nameplate=9000", 0);
    printed_for(4, "nameplate=9001", 5);
    printed_for(6, "assisted=yes", 0);
    printed_for(7, "prices=30000,20000,10000,10001", 4);
    printed_for(14, "minimum=1000001", 4);
    printed_for(3, "class=business", 0);
    let bridge_business = opening_with(2, "rider=bridge").replace("class=home", "class=business");
    assert_printed(bridge_business, "open=6\n");
}

// Open point 10: only a readable bill line or the end completes a month.

#[test]
fn a_complete_month_before_a_bad_line_prints_nothing() {
    let february = "bill=2001-02\ncritical=0\nrun=2688,100,0\n";
    for bad in [
        "bill=2001-3",
        "bill=2001-13",
        "bills=2001-03",
        "critical=0",
        "opens=2001-02",
        "run=1,2",
        "run=1,2,3,4",
        "run=1,2,",
        "nonsense",
        "",
    ] {
        assert_after_opening(&format!("{february}{bad}\n"), "line=18\n");
    }
    // The months before it are printed.
    let march = "bill=2001-03\ncritical=0\nrun=2976,0,0\n";
    assert_after_opening(
        &format!("{february}{march}nonsense\nbill=2001-04\n"),
        &format!("{FEBRUARY}line=21\n"),
    );
}

#[test]
fn a_bill_line_completes_the_month_though_its_own_fails() {
    assert_after_opening(
        "bill=2001-02\ncritical=0\nrun=2688,100,0\nbill=2001-03\nbill=2001-04\n",
        &format!("{FEBRUARY}line=19\n"),
    );
}

// Open point 11: a wrong month is no fault of its line.

#[test]
fn a_wrong_month_is_refused_and_the_next_goes_on() {
    assert_after_opening(
        "bill=2001-03\ncritical=0\nrun=2976,0,0\n\
         bill=9999-12\ncritical=0\n\
         bill=2000-01\ncritical=4294967295\nrun=1,4294967295,0\n\
         bill=2001-02\ncritical=0\nrun=2688,100,0\n\
         bill=2001-02\ncritical=0\nrun=2688,100,0\n",
        &[
            refused("2001-03", 7),
            refused("9999-12", 7),
            refused("2000-01", 7),
            FEBRUARY.to_string(),
            refused("2001-02", 7),
        ]
        .concat(),
    );
}

#[test]
fn a_full_book_and_the_years_after() {
    let december = opening_with(1, "opens=2099-12");
    assert_printed(
        december
            + "bill=2100-01\ncritical=0\nrun=2976,0,0\n\
               bill=2099-12\ncritical=0\nrun=2976,0,0\n\
               bill=2100-01\ncritical=0\nrun=2976,0,0\n\
               bill=2099-12\ncritical=0",
        &[
            "open=0\n".to_string(),
            refused("2100-01", 7),
            idle("2099-12"),
            refused("2100-01", 11),
            refused("2099-12", 11),
        ]
        .concat(),
    );
}

#[test]
fn each_refusal_of_a_month() {
    assert_after_opening(
        "bill=2001-02\ncritical=0\nrun=2687,0,0\n\
         bill=2001-02\ncritical=268435456\nrun=2688,0,0\n\
         bill=2001-02\ncritical=2047\nrun=2688,0,0\n\
         bill=2001-02\ncritical=1023\nrun=2687,0,0\nrun=1,0,1000001\n\
         bill=2001-02\ncritical=1023\nrun=2688,0,0\n",
        &[
            refused("2001-02", 8),
            refused("2001-02", 9),
            refused("2001-02", 9),
            refused("2001-02", 10),
            idle("2001-02"),
        ]
        .concat(),
    );
}

// 02, No. 4 and open point 26: in a run 4294967295 is a lost reading.

#[test]
fn runs_of_lost_readings_count_as_the_reading_before() {
    let month = "bill=2001-02\ncritical=0\n";
    // 01's example again, of which one reading came, or one each week.
    assert_after_opening(
        &format!("{month}run=1,100,0\nrun=2687,4294967295,0\n"),
        FEBRUARY,
    );
    assert_after_opening(
        &format!("{month}run=1,100,0\nrun=2687,4294967295,4294967295\n"),
        FEBRUARY,
    );
    let week = "run=1,100,0\nrun=600,4294967295,4294967295\nrun=71,4294967295,0\n";
    assert_after_opening(&format!("{month}{}", week.repeat(4)), FEBRUARY);
    // In the received column alone.
    assert_after_opening(
        &format!("{month}run=7,100,0\nrun=2681,100,4294967295"),
        FEBRUARY,
    );
    // Two quarters off-peak of 100 Wh, two more lost and two at discount: 400 and 200 Wh;
    // 50 Wh came in each of the lost ones. 300 × 10,000 + 100 × 5,000 is 3.5 cents.
    assert_after_opening(
        &format!("{month}run=2,100,0\nrun=4,4294967295,50\nrun=2682,0,0\n"),
        "bill=2001-02 answer=0 own=0,0,100,100 out=0,0,0,0 in=0,0,0,0 paid=0,0,0,0 \
         forfeited=0,0,0,0 billed=0,0,300,100 left=0,0,0,0 energy=4 due=1404\n",
    );
}

#[test]
fn a_run_of_none_has_no_reading_to_fill_with() {
    let month = "bill=2001-02\ncritical=0\n";
    for runs in [
        "run=0,4294967295,4294967295\nrun=2688,100,0\n",
        "run=1,100,0\nrun=0,7,7\nrun=2687,4294967295,4294967295\n",
        "run=1,100,0\nrun=2687,4294967295,0\nrun=0,4294967295,4294967295\n",
    ] {
        assert_after_opening(&format!("{month}{runs}"), FEBRUARY);
    }
    assert_after_opening(
        &format!("{month}run=0,100,0\nrun=2688,4294967295,0\n"),
        &refused("2001-02", 13),
    );
}

#[test]
fn a_lost_first_reading_of_a_run() {
    let month = "bill=2001-02\ncritical=0\n";
    for (runs, number) in [
        ("run=2688,4294967295,0\n", 13),
        ("run=2688,0,4294967295\n", 13),
        ("run=2688,4294967295,4294967295", 13),
        ("run=1,4294967295,0\nrun=2687,100,0\n", 13),
        ("run=1,4294967295,0\nrun=2687,100,1000001\n", 10),
        ("run=1,4294967295,1000001\nrun=2687,100,0\n", 10),
        ("run=1,4294967294,0\nrun=2687,100,0\n", 10),
        ("run=1,100,0\nrun=2687,4294967295,4294967294\n", 10),
        ("run=2687,4294967295,0\n", 8),
    ] {
        // The month can be billed afterwards.
        assert_after_opening(
            &format!("{month}{}\n{month}run=2688,100,0\n", runs.trim_end()),
            &(refused("2001-02", number) + FEBRUARY),
        );
    }
}

#[test]
fn a_gap_over_the_end_of_a_month() {
    let february = "bill=2001-02\ncritical=0\nrun=1,100,0\nrun=2687,4294967295,0\n";
    assert_after_opening(
        &format!(
            "{february}bill=2001-03\ncritical=0\nrun=96,4294967295,0\nrun=2880,0,0\n\
             bill=2001-03\ncritical=0\nrun=1,0,0\nrun=2975,4294967295,0\n"
        ),
        &[
            FEBRUARY.to_string(),
            refused("2001-03", 13),
            idle("2001-03"),
        ]
        .concat(),
    );
}

#[test]
fn no_other_number_is_ever_lost() {
    let lost = |line: usize, key: &str| opening_with(line, &format!("{key}=4294967295"));
    assert_printed(lost(4, "nameplate"), "open=5\n");
    assert_printed(lost(5, "limit"), "open=0\n");
    for (line, key) in [
        (8, "demand"),
        (11, "credit"),
        (13, "basic"),
        (14, "minimum"),
    ] {
        assert_printed(lost(line, key), "open=4\n");
    }
    assert_after_opening(
        "bill=2001-02\ncritical=4294967295\nrun=2688,100,0\n",
        &refused("2001-02", 9),
    );
    assert_after_opening(
        "bill=2001-02\ncritical=0\nrun=1,100,0\nrun=4294967295,100,0\n",
        "line=18\n",
    );
    // Past 32 bits there is no number.
    assert_after_opening(
        "bill=2001-02\ncritical=0\nrun=1,100,0\nrun=2687,4294967296,0\n",
        "line=18\n",
    );
}

// Open point 12: the opening alone, and after a refused one.

#[test]
fn fourteen_lines_alone() {
    assert_printed(opening(), "open=0\n");
    assert_printed(opening().trim_end(), "open=0\n");
}

#[test]
fn months_after_a_refused_opening() {
    assert_printed(
        opening_with(4, "nameplate=0")
            + "bill=2001-02\ncritical=0\nrun=2688,100,0\nbill=2100-01\ncritical=0\n",
        &[
            "open=5\n".to_string(),
            refused("2001-02", 1),
            refused("2100-01", 1),
        ]
        .concat(),
    );
}

// Open point 13: the limit of 2,976 readings.

#[test]
fn readings_of_a_month_so_far() {
    let month = "bill=2001-02\ncritical=0\n";
    // 2,976 are no fault of the line, only of the month.
    assert_after_opening(&format!("{month}run=2976,1,1\n"), &refused("2001-02", 8));
    assert_after_opening(&format!("{month}run=2977,1,1\n"), "line=17\n");
    assert_after_opening(&format!("{month}run=4294967295,1,1\n"), "line=17\n");
    assert_after_opening(
        &format!("{month}run=2975,1,1\nrun=1,1,1\n"),
        &refused("2001-02", 8),
    );
    assert_after_opening(&format!("{month}run=2975,1,1\nrun=2,1,1\n"), "line=18\n");
    // Counts whose sum would wrap in 32 bits.
    assert_after_opening(
        &format!("{month}run=2,1,1\nrun=4294967295,1,1\n"),
        "line=18\n",
    );
    assert_after_opening(
        &format!("{month}run=2976,1,1\nrun=4294964320,1,1\n"),
        "line=18\n",
    );
    // An empty run adds nothing, also at the limit.
    assert_after_opening(
        &format!("{month}run=0,7,7\nrun=2688,100,0\nrun=0,4294967295,7\n"),
        FEBRUARY,
    );
    assert_after_opening(
        &format!("{month}run=2976,1,1\nrun=0,7,7\nrun=0,7,7"),
        &refused("2001-02", 8),
    );
    assert_after_opening(
        &format!("{month}run=2976,1,1\nrun=0,7,7\nrun=1,0,0\n"),
        "line=19\n",
    );
    // The count starts anew with each month.
    assert_after_opening(
        &format!("{month}run=2976,1,1\n{month}run=2688,100,0\n"),
        &(refused("2001-02", 8) + FEBRUARY),
    );
}

#[test]
fn a_month_without_runs() {
    assert_after_opening("bill=2001-02\ncritical=0\n", &refused("2001-02", 8));
    assert_after_opening(
        "bill=2001-02\ncritical=0\nbill=2001-02\ncritical=0\nrun=2688,100,0",
        &(refused("2001-02", 8) + FEBRUARY),
    );
}

// Open point 14: lines and bytes.

#[test]
fn empty_lines_are_unreadable() {
    assert_printed("\n", "line=1\n");
    assert_printed("\n".to_string() + &opening(), "line=1\n");
    assert_printed(opening() + "\n", "open=0\nline=15\n");
    let month = "bill=2001-02\ncritical=0\nrun=2688,100,0\n";
    assert_after_opening(&format!("{month}\n"), "line=18\n");
    assert_after_opening(&format!("{month}\n\n"), "line=18\n");
    assert_after_opening(&format!("\n{month}"), "line=15\n");
}

#[test]
fn foreign_bytes_make_a_line_unreadable() {
    for bytes in [
        &b"\r"[..],
        b" ",
        b"\t",
        b"\0",
        b"\x80",
        b"\xff",
        b"\xc3\xa4",
    ] {
        // At the end, at the front, and inside line 4.
        for line in [
            [b"nameplate=8000", bytes].concat(),
            [bytes, b"nameplate=8000"].concat(),
            [b"nameplate=80", bytes, b"00"].concat(),
            [b"nameplate", bytes, b"=8000"].concat(),
        ] {
            let mut input = OPENING[..3].join("\n").into_bytes();
            input.push(b'\n');
            input.extend(line);
            input.push(b'\n');
            assert_printed(input, "line=4\n");
        }
        let mut input = opening().into_bytes();
        input.extend(bytes);
        assert_printed(input, "open=0\nline=15\n");
    }
    assert_printed(opening().replace('\n', "\r\n"), "line=1\n");
}

#[test]
fn a_very_long_line_is_unreadable() {
    let long = "7".repeat(10_000_000);
    assert_printed(&long, "line=1\n");
    assert_after_opening(&format!("bill={long}\n"), "line=15\n");
    let commas = "1,".repeat(1_000_000);
    assert_after_opening(
        &format!("bill=2001-02\ncritical=0\nrun={commas}\n"),
        "line=17\n",
    );
}

// Open point 15: numbers and months.

#[test]
fn numbers_have_one_to_ten_digits() {
    // The nameplate is 8,000 W, so a smaller limit answers 5.
    for (readable, answer) in [
        ("8000", 0),
        ("0000008000", 0),
        ("4294967295", 0),
        ("7999", 5),
        ("0", 5),
        ("0000000000", 5),
    ] {
        let input = opening_with(5, &format!("limit={readable}"));
        assert_printed(input, &format!("open={answer}\n"));
    }
    for unreadable in [
        "",
        "00000008000",
        "4294967296",
        "9999999999",
        "99999999999999999999999",
        "+8000",
        "-1",
        "8,000",
        "0x10",
        "8000.",
        "8e3",
    ] {
        let input = opening_with(5, &format!("limit={unreadable}"));
        assert_printed(input, "line=5\n");
    }
}

#[test]
fn months_are_exact() {
    for readable in ["2001-02", "2001-12", "2000-01"] {
        assert_printed(opening_with(1, &format!("opens={readable}")), "open=0\n");
    }
    for unreadable in [
        "", "2001-2", "2001-002", "02001-02", "201-02", "2001-00", "2001-13", "1999-12", "0000-01",
        "2001/02", "200102", "2001-0x", "+001-02", "2001--1", "2001-02-", "10000-01",
    ] {
        assert_printed(opening_with(1, &format!("opens={unreadable}")), "line=1\n");
        assert_after_opening(&format!("bill={unreadable}\n"), "line=15\n");
    }
    assert_printed(opening_with(1, "opens=9999-12"), "open=7\n");
}

#[test]
fn lists_have_exactly_their_numbers() {
    for unreadable in [
        "1,1,1",
        "1,1,1,1,1",
        "1,1,1,",
        ",1,1,1",
        "1,,1,1",
        "1;1;1;1",
        "",
    ] {
        let input = opening_with(7, &format!("prices={unreadable}"));
        assert_printed(input, "line=7\n");
    }
    for unreadable in ["1,1", "1,1,1,1", "1,1,", ",1,1", "1,1,4294967296", ""] {
        let input = format!("bill=2001-02\ncritical=0\nrun={unreadable}\n");
        assert_after_opening(&input, "line=17\n");
    }
}

// 02, No. 3: one to eight nameplates.

#[test]
fn nameplates_are_one_to_eight() {
    let with = |value: &str| opening_with(4, &format!("nameplate={value}"));
    // The limit is 9,000 W.
    for (readable, answer) in [
        ("9000", 0),
        ("4500,4500", 0),
        ("4500,4501", 5),
        ("1,1,1", 0),
        ("1125,1125,1125,1125,1125,1125,1125,1125", 0),
        ("1125,1125,1125,1125,1125,1125,1125,1126", 5),
        ("0,8000", 5),
        ("8000,0", 5),
        ("1,1,1,1,0,1,1,1", 5),
        ("0,0", 5),
        ("4294967295,2", 5),
        ("4294967295,1,8000", 5),
        ("2147483648,2147483648", 5),
        ("4294967295,4294967295", 5),
    ] {
        assert_printed(with(readable), &format!("open={answer}\n"));
    }
    for unreadable in [
        "",
        ",",
        ",8000",
        "8000,",
        "1000,,1000",
        "1,1,1,1,1,1,1,1,",
        "1,1,1,1,1,1,1,,1",
        "1,1,1,1,1,1,1,1,1",
        "1,1,1,1,1,1,1,1,1,1,1,1,1,1,1,1",
        "1000, 1000",
        "1000;1000",
        "1000,4294967296",
        "1000,00000001000",
        "1000,x",
    ] {
        assert_printed(with(unreadable), "line=4\n");
    }
}

#[test]
fn the_longest_line_that_is_readable() {
    // Ten digits each: 10 + 8 × 10 + 7 bytes.
    let longest = format!("nameplate={}", ["0000001125"; 8].join(","));
    assert_eq!(longest.len(), 97);
    assert_printed(opening_with(4, &longest), "open=0\n");
    for more in ["0", ",", "\r", " "] {
        let longer = format!("{longest}{more}");
        assert_printed(opening_with(4, &longer), "line=4\n");
    }
}

#[test]
fn nameplates_are_charged_by_their_total() {
    // 8,001 W at 50,000 are 400 cents of bypass; an assisted home of this size pays the
    // shortfall, 2,200 less 1,400.
    let roofs = opening_with(4, "nameplate=5000,3001")
        .replace("rider=banked", "rider=bridge")
        .replace("assisted=no", "assisted=yes")
        .replace("bypass=0", "bypass=50000")
        .replace("minimum=0", "minimum=2200");
    let month = "bill=2001-02\ncritical=0\nrun=2688,0,0\n";
    let printed = |due: &str| format!("open=0\n{}", idle("2001-02").replace("due=1400", due));
    assert_printed(roofs.clone() + month, &printed("due=2600"));
    let smaller = roofs.replace("5000,3001", "5000,3000");
    assert_printed(smaller + month, &printed("due=1800"));
    // The same bytes as those of one nameplate.
    let one = roofs.replace("5000,3001", "8001");
    assert_printed(one + month, &printed("due=2600"));
}

#[test]
fn words_are_exact() {
    for (line, text) in [
        (2, "rider=Banked"),
        (2, "rider=bridge2"),
        (2, "rider="),
        (2, "rider=home"),
        (3, "class=Home"),
        (3, "class=banked"),
        (6, "assisted=y"),
        (6, "assisted=YES"),
        (6, "assisted=1"),
    ] {
        assert_printed(opening_with(line, text), &format!("line={line}\n"));
    }
}

// Open point 16: absent lines; and lines out of order.

#[test]
fn an_absent_line_has_its_number() {
    assert_printed("", "line=1\n");
    for present in 1..14 {
        let input = OPENING[..present].join("\n");
        let expected = format!("line={}\n", present + 1);
        assert_printed(&input, &expected);
        assert_printed(input + "\n", &expected);
    }
    assert_after_opening("bill=2001-02\n", "line=16\n");
    assert_after_opening("bill=2001-02", "line=16\n");
    assert_after_opening(
        "bill=2001-02\ncritical=0\nrun=2688,100,0\nbill=2001-03",
        &format!("{FEBRUARY}line=19\n"),
    );
}

#[test]
fn each_line_of_the_opening_may_be_the_faulty_one() {
    for number in 1..=14 {
        let key = OPENING[number - 1].split('=').next().unwrap();
        let others = [
            key.to_string(),
            format!("{key}="),
            format!("x{key}=0"),
            String::new(),
        ];
        for line in others {
            assert_printed(opening_with(number, &line), &format!("line={number}\n"));
        }
        // Two lines exchanged, and a line twice.
        if number < 14 {
            let mut lines = OPENING;
            lines.swap(number - 1, number);
            assert_printed(lines.join("\n"), &format!("line={number}\n"));
        }
        let mut lines = OPENING.to_vec();
        lines.insert(number, OPENING[number - 1]);
        let expected = match number {
            14 => "open=0\nline=15\n".to_string(),
            _ => format!("line={}\n", number + 1),
        };
        assert_printed(lines.join("\n"), &expected);
    }
}

#[test]
fn months_lines_out_of_order() {
    assert_after_opening("critical=0\n", "line=15\n");
    assert_after_opening("run=1,0,0\n", "line=15\n");
    assert_after_opening("bill=2001-02\nrun=2688,100,0\n", "line=16\n");
    assert_after_opening("bill=2001-02\nbill=2001-02\n", "line=16\n");
    assert_after_opening("bill=2001-02\ncritical=0\ncritical=0\n", "line=17\n");
    assert_after_opening("bill=2001-02\ncritical=4294967296\n", "line=16\n");
}

// Open point 17: each printed line ends in a newline; and no input stops it.

#[test]
fn damaged_input_still_prints_whole_lines() {
    let mut random = Random::new(17);
    let month = "bill=2001-02\ncritical=3\nrun=1000,7,9\nrun=1688,100,0\n";
    let march = "bill=2001-03\ncritical=0\nrun=2976,0,1\n";
    let whole = (opening() + month + march).into_bytes();
    for _ in 0..5_000 {
        let mut input = whole.clone();
        for _ in 0..random.below(4) {
            let place = random.below(input.len() as u64) as usize;
            let byte = random.pick([b'\n', b'0', b'9', b',', b'=', b'-', b' ', 0, 255]);
            match random.below(4) {
                0 => input[place] = byte,
                1 => input.insert(place, byte),
                2 => drop(input.remove(place)),
                _ => input.truncate(place + 1),
            }
        }
        let printed = String::from_utf8(statement(&input)).unwrap();
        assert!(printed.is_empty() || printed.ends_with('\n'));
        let lines: Vec<&str> = printed.lines().collect();
        for (index, line) in lines.iter().enumerate() {
            let is_last = index + 1 == lines.len();
            let fits = match index {
                0 => line.starts_with("open=") || (is_last && line.starts_with("line=")),
                _ => line.starts_with("bill=") || (is_last && line.starts_with("line=")),
            };
            assert!(fits, "{printed}");
        }
    }
}
