//! The program: what it reads, and each way to write `bad`.

mod common;
use common::*;

/// The output for raw input.
fn run(input: &str) -> String {
    text(second::run(input.as_bytes()))
}

/// The program's answer to one bad record after three good ones, of which the
/// third is an event.
fn after_three(record: &str) -> String {
    run(&format!("rule,1,0\r\nright,1,5\r\nactivate,20,1\r\n{record}\r\nlogout,20\r\n"))
}

const GOOD: &str = "0,0\r\n0,1\r\n";
const BAD_FOURTH: &str = "0,0\r\nbad,4\r\n";

#[test]
fn empty_input_writes_nothing() {
    assert_eq!(run(""), "");
}

#[test]
fn a_policy_alone_writes_nothing() {
    assert_eq!(output(&["rule,1,0", "kind,1,0", "right,1,5"]), "");
    assert_eq!(output(&["rule,999,999"]), "");
}

#[test]
fn the_last_record_may_lack_its_line_end() {
    assert_eq!(run("logout,1"), "0,0\r\n");
    assert_eq!(run("logout,1\r\n"), "0,0\r\n");
    assert_eq!(run("logout,1\r\nlogout,2"), "0,0\r\n0,0\r\n");
}

#[test]
fn each_event_reaches_its_call_with_its_arguments_in_order() {
    let lines = [
        "rule,9,0",         // 0
        "rule,1,1,256",     // 1
        "rule,2,2,1,384,9", // 2, never granted to user 20
        "rule,2,1,1,385",   // 3
        "kind,9,1,9",       // 0, role 9 as prerequisite
        "kind,9,0",         // 1
        "right,1,5",
        "activate,8,9",     // 0,0
        "activate,20,9",    // 0,0
        "appoint,8,20,0",   // 0,0
        "activate,20,1",    // 0,1
        "env,1,1",          // 0,0
        "activate,20,2",    // 0,3
        "effective,20,2,5", // 0,1
        "effective,20,9,5", // 0,0
        "invoke,20,5",      // 0,1
        "invoke,8,5",       // 0,0
        "revoke,21,20,0,8", // 10,0
        "revoke,20,20,0,8", // 0,2: mode 1, and user 20 is in role 9
        "appoint,8,20,1",   // 0,0
        "revoke,20,20,1,8", // 10,0: mode 0
        "withdraw,20,1,20", // 9,0
        "withdraw,20,1,8",  // 0,0
        "logout,20",        // 0,1
        "logout,8",         // 0,1
    ];
    let answers = [
        "0,0", "0,0", "0,0", "0,1", "0,0", "0,3", "0,1", "0,0", "0,1", "0,0", "10,0", "0,2", "0,0",
        "10,0", "9,0", "0,0", "0,1", "0,1",
    ];
    assert_eq!(output(&lines), answers.join("\r\n") + "\r\n");
}

#[test]
fn a_kind_may_stand_after_the_rule_that_names_it() {
    assert_eq!(output(&["rule,1,0,256", "kind,1,0", "activate,2,1"]), "5,0\r\n");
    assert_eq!(output(&["kind,1,0", "rule,1,0,256", "activate,2,1"]), "5,0\r\n");
}

#[test]
fn an_unknown_word_is_bad() {
    assert_eq!(after_three("logout,20"), GOOD.to_owned() + "0,0\r\n");
    for word in
        ["", "chain", "fresh", "environment", "Logout", "LOGOUT", " logout", "logou", "logouts"]
    {
        assert_eq!(after_three(&format!("{word},20")), BAD_FOURTH, "{word}");
    }
    assert_eq!(run("\u{feff}logout,20"), "bad,1\r\n");
}

/// Each word with its least and greatest number of numbers.
const COUNTS: [(&str, usize, usize); 11] = [
    ("rule", 2, 10),
    ("kind", 2, 6),
    ("right", 2, 2),
    ("activate", 2, 2),
    ("appoint", 3, 3),
    ("revoke", 4, 4),
    ("withdraw", 3, 3),
    ("env", 2, 2),
    ("logout", 1, 1),
    ("invoke", 2, 2),
    ("effective", 3, 3),
];

#[test]
fn each_word_has_its_field_count() {
    for (word, least, greatest) in COUNTS {
        for count in 0..=12 {
            let record = word.to_owned() + &",0".repeat(count);
            let bad = run(&record) == "bad,1\r\n";
            assert_eq!(bad, count < least || count > greatest, "{record}");
        }
    }
}

#[test]
fn an_empty_last_field_counts() {
    assert_eq!(run("logout,20,"), "bad,1\r\n");
    assert_eq!(run("rule,1,0,"), "bad,1\r\n");
    assert_eq!(run("kind,1,0,"), "bad,1\r\n");
}

#[test]
fn numbers_are_decimal_from_0_to_65535_with_no_leading_zero() {
    for number in ["65536", "70000", "99999", "100000", "4294967296", "18446744073709551636"] {
        assert_eq!(after_three(&format!("logout,{number}")), BAD_FOURTH, "{number}");
    }
    for number in ["", "00", "01", "020", "+20", "-0", "-20", " 20", "20 ", "2 0", "20.", "0x14"] {
        assert_eq!(after_three(&format!("logout,{number}")), BAD_FOURTH, "{number}");
    }
    for number in ["1e1", "2_0", "20\0", "\t20", "２", "٣"] {
        assert_eq!(after_three(&format!("logout,{number}")), BAD_FOURTH, "{number}");
    }
    assert_eq!(after_three("logout,65535"), "0,0\r\n3,0\r\n0,1\r\n");
    assert_eq!(after_three("logout,10000"), "0,0\r\n3,0\r\n0,1\r\n");
    assert_eq!(after_three("logout,0"), "0,0\r\n0,0\r\n0,1\r\n");
    assert_eq!(after_three("logout,20"), "0,0\r\n0,1\r\n0,0\r\n");
}

#[test]
fn every_field_of_a_record_must_be_a_number() {
    for record in ["revoke,x,1,2,3", "revoke,0,x,2,3", "revoke,0,1,x,3", "revoke,0,1,2,x"] {
        assert_eq!(after_three(record), BAD_FOURTH, "{record}");
    }
    assert_eq!(run("rule,1,0,1,1,1,1,1,1,1,x"), "bad,1\r\n");
    assert_eq!(run("rule,1,0,1,1,1,1,1,1,1,65536"), "bad,1\r\n");
}

#[test]
fn bytes_that_are_no_text_are_bad() {
    assert_eq!(text(second::run(b"logout,\xff")), "bad,1\r\n");
    assert_eq!(text(second::run(b"log\xffout,1")), "bad,1\r\n");
}

#[test]
fn a_whole_field_may_be_quoted() {
    assert_eq!(after_three("\"logout\",20"), "0,0\r\n0,1\r\n0,0\r\n");
    assert_eq!(after_three("logout,\"20\""), "0,0\r\n0,1\r\n0,0\r\n");
    assert_eq!(after_three("\"invoke\",\"20\",\"5\""), "0,0\r\n0,1\r\n0,1\r\n");
    assert_eq!(run("\"rule\",\"1\",\"0\"\r\n\"activate\",7,\"1\""), "0,0\r\n");
}

#[test]
fn other_quoting_is_bad() {
    for record in [
        "logout,\"20",
        "logout,20\"",
        "logout,2\"0",
        "logout,\"2\"0",
        "logout,2\"0\"",
        "logout,\"\"20\"\"",
        "logout,\"2\"\"0\"",
        "logout,\"20\"\"",
        "logout,\"\"20\"",
        "logout,\"",
        "logout,\"\"",
        "logout,\"\"\"",
        "logout,\"\"\"\"",
        "logout, \"20\"",
        "logout,\"20\" ",
        "logout,\" 20\"",
        "logout,\"020\"",
        "logout,\"65536\"",
        "logout,'20'",
        "\"logout,20\"",
        "\"logout,20",
        "logout\",20",
        "\"log\"out,20",
        "\"\",20",
        "\"\"",
        "\"",
        "invoke,\"20,5\"",
        "invoke,\"20\",\"5",
        "logout,\"2\r0\"",
        "logout,\"2\n0\"",
        "logout,\"20\r\n\"",
        "\"logout\r\n\",20",
    ] {
        assert_eq!(after_three(record), BAD_FOURTH, "{record:?}");
    }
}

#[test]
fn a_cr_or_lf_outside_a_crlf_is_bad() {
    for record in [
        "logout,20\r",
        "logout,20\n",
        "\nlogout,20",
        "\rlogout,20",
        "logout\n,20",
        "logout,\r20",
        "logout,20\nlogout,20",
        "logout,20\rlogout,20",
        "logout,20\n\r",
        "\r",
        "\n",
        "\n\r",
    ] {
        assert_eq!(after_three(record), BAD_FOURTH, "{record:?}");
    }
    assert_eq!(run("logout,1\r\nlogout,2\r"), "0,0\r\nbad,2\r\n");
    assert_eq!(run("logout,1\r\nlogout,2\n"), "0,0\r\nbad,2\r\n");
    assert_eq!(run("logout,1\r\n\r"), "0,0\r\nbad,2\r\n");
    assert_eq!(run("logout,1\r\n\n"), "0,0\r\nbad,2\r\n");
    assert_eq!(run("logout,1\n"), "bad,1\r\n");
    assert_eq!(run("logout,1\nlogout,2\n"), "bad,1\r\n");
}

#[test]
fn an_empty_record_is_bad() {
    assert_eq!(after_three(""), BAD_FOURTH);
    assert_eq!(run("\r\n"), "bad,1\r\n");
    assert_eq!(run("logout,1\r\n\r\n"), "0,0\r\nbad,2\r\n");
    assert_eq!(run("\r\nlogout,1"), "bad,1\r\n");
}

#[test]
fn a_policy_record_after_an_event_is_bad() {
    for record in ["rule,1,0", "kind,1,0", "right,1,5"] {
        assert_eq!(after_three(record), BAD_FOURTH);
    }
    // Also after an event that was refused, or that only asked.
    assert_eq!(output(&["activate,1,1", "rule,1,0"]), "5,0\r\nbad,2\r\n");
    assert_eq!(output(&["invoke,1,1", "right,1,1"]), "0,0\r\nbad,2\r\n");
    assert_eq!(output(&["right,256,1", "invoke,1,1", "right,1,1"]), "1,0\r\nbad,3\r\n");
}

#[test]
fn the_policy_tables_may_come_in_any_order() {
    assert_eq!(output(&["right,1,5", "kind,1,0", "rule,1,0", "right,1,6", "logout,1"]), "0,0\r\n");
}

#[test]
fn nothing_is_read_after_a_bad_record() {
    assert_eq!(output(&["logout,1", "x", "logout,1", "y"]), "0,0\r\nbad,2\r\n");
}

/// The record, as often as said, then one event.
fn repeated(record: &str, times: usize) -> String {
    run(&(format!("{record}\r\n").repeat(times) + "logout,1"))
}

#[test]
fn a_row_past_a_tables_limit_is_bad() {
    for (record, most) in [("rule,1,0", 512), ("kind,1,0", 128), ("right,1,5", 2_048)] {
        assert_eq!(repeated(record, most), "0,0\r\n", "{record}");
        assert_eq!(repeated(record, most + 1), format!("bad,{}\r\n", most + 1), "{record}");
    }
    // A malformed row past the limit is bad as well.
    assert_eq!(repeated("kind,256,0", 129), "bad,129\r\n");
    assert_eq!(repeated("kind,256,0", 128), "1,0\r\n");
}

#[test]
fn the_limits_of_the_three_tables_are_counted_apart() {
    let policy = "rule,1,0\r\n".repeat(512) + &"kind,1,0\r\n".repeat(128);
    let policy = policy + &"right,1,5\r\n".repeat(2_048);
    assert_eq!(run(&(policy.clone() + "activate,1,1")), "0,0\r\n");
    assert_eq!(run(&(policy + "kind,1,0")), "bad,2689\r\n");
}

#[test]
fn with_any_other_malformed_row_each_event_answers_1_0() {
    for row in [
        "rule,256,0",
        "rule,1,1",
        "rule,1,9,1,1,1,1,1,1,1,1",
        "rule,1,65535",
        "rule,1,0,448",
        "rule,1,0,256",
        "kind,256,0",
        "kind,1,3",
        "kind,1,0,256",
        "kind,1,0,1,1,1,256",
        "right,256,1",
        "right,1,1024",
    ] {
        let events = ["activate,20,1", "logout,4096", "invoke,20,5"];
        let answers = "1,0\r\n".repeat(3);
        let lines = [&["rule,1,0", row][..], &events].concat();
        assert_eq!(output(&lines), answers, "{row}");
        let lines = [&[row, "rule,1,0"][..], &events].concat();
        assert_eq!(output(&lines), answers, "{row}");
        let lines = [&[row, "rule,1,0"][..], &events, &["x"]].concat();
        assert_eq!(output(&lines), answers + "bad,6\r\n", "{row}");
    }
}

#[test]
fn full_rows_are_read() {
    let conditions: Vec<String> = (384..392).map(|n| n.to_string()).collect();
    let rule = format!("rule,1,8,{}", conditions.join(","));
    let lines: Vec<String> = (0..8).map(|fact| format!("env,{fact},1")).collect();
    let mut session = vec![rule.as_str(), "activate,20,1"];
    session.extend(lines.iter().map(String::as_str));
    session.extend(["activate,20,1", "env,7,0"]);
    let expected = "5,0\r\n".to_owned() + &"0,0\r\n".repeat(9) + "0,1\r\n";
    assert_eq!(output(&session), expected);

    let four = "kind,9,0,1,2,3,4";
    let roles = ["rule,1,0", "rule,2,0", "rule,3,0", "rule,4,0", "rule,5,1,256", "rule,9,0"];
    let events = ["activate,8,9", "appoint,8,20,0", "activate,20,1", "activate,20,2"];
    let more = ["activate,20,3", "activate,20,5", "activate,20,4", "activate,20,5"];
    let session = [&[four][..], &roles, &events, &more].concat();
    assert_eq!(output(&session), "0,5\r\n0,0\r\n0,0\r\n0,1\r\n0,2\r\n5,0\r\n0,3\r\n0,4\r\n");
}

/// 6,552 events of ten bytes, and a last one of sixteen or more.
fn long_input(last: &str) -> String {
    "logout,1\r\n".repeat(6_552) + last
}

#[test]
fn input_of_65536_bytes_is_read() {
    let input = long_input("\"logout\",\"409\"\r\n");
    assert_eq!(input.len(), 65_536);
    assert_eq!(run(&input), "0,0\r\n".repeat(6_553));
}

#[test]
fn longer_input_writes_bad_0_only() {
    let input = long_input("\"logout\",\"4095\"\r\n");
    assert_eq!(input.len(), 65_537);
    assert_eq!(run(&input), "bad,0\r\n");
    assert_eq!(run(&"x".repeat(65_537)), "bad,0\r\n");
    assert_eq!(run(&"x".repeat(65_536)), "bad,1\r\n");
    assert_eq!(run(&"\r\n".repeat(100_000)), "bad,0\r\n");
}

/// The built program: standard input to standard output, and nothing else.
#[test]
fn the_built_program_does_the_same() {
    for (input, expected) in [
        ("rule,1,0\r\nactivate,20,1\r\nx".to_owned(), "0,0\r\nbad,3\r\n".to_owned()),
        (String::new(), String::new()),
        (long_input("\"logout\",\"409\"\r\n"), "0,0\r\n".repeat(6_553)),
        (long_input("\"logout\",\"4095\"\r\n"), "bad,0\r\n".to_owned()),
    ] {
        assert_eq!(built_program(input), expected);
    }
}

fn built_program(input: String) -> String {
    use std::io::Write;
    use std::process::{Command, Stdio};
    let mut child = Command::new(env!("CARGO_BIN_EXE_second"))
        .stdin(Stdio::piped())
        .stdout(Stdio::piped())
        .spawn()
        .expect("the program starts");
    let mut stdin = child.stdin.take().expect("its input is ours");
    let writer = std::thread::spawn(move || stdin.write_all(input.as_bytes()));
    let output = child.wait_with_output().expect("the program ends");
    writer.join().expect("the writer ends").expect("the input is read");
    assert!(output.status.success());
    text(output.stdout)
}
