//! The script protocol: result lines, malformed lines, and scripts of rubbish.

mod common;

use common::{random_rule, record, Bounds, Random};
use reference::script::run_script;

const FILE: &str = "0600010002000200010002000200000002000300000\
    00E00050000000100000001000000020001000E0005000100000001000000000003000100";

fn answers(script: &str) -> Vec<String> {
    let mut output = Vec::new();
    run_script(script.as_bytes(), &mut output).unwrap();
    String::from_utf8(output).unwrap().lines().map(String::from).collect()
}

/// The answers after the whole case is read and built.
fn after_build(script: &str) -> Vec<String> {
    answers(&format!("read {FILE} 22016 9\nbuild 16384 16384 2048 8192 5\n{script}"))[2..].to_vec()
}

#[test]
fn the_example_of_the_protocol() {
    let script = "exact 2 0,1 2,4 64 3\n branch 2 0,1 2,4\nstart 2\n\n# note\nfollow 0 2";
    let expected = [
        "exact ok 1 scratch=64:7da144b97d054b25",
        "branch ok 1 0 0,1,0,0,0,0,0,0,0,0,0,0 0",
        "start ok follower=2,0,0,0,0",
        "follow ok 0 follower=2,2,2,2,1",
    ];
    assert_eq!(after_build(script), expected);
}

#[test]
fn hashes_are_fnv_1a_over_eight_bytes_a_number() {
    let plain = |numbers: &[u64]| {
        let bytes = numbers.iter().flat_map(|number| number.to_le_bytes());
        let hash = bytes.fold(0xcbf2_9ce4_8422_2325_u64, |hash, byte| {
            (hash ^ u64::from(byte)).wrapping_mul(0x100_0000_01b3)
        });
        format!("resize {}:{hash:016x}", numbers.len())
    };
    let script = "resize cells 2 70000\nresize cells 3 255\nresize cells 4 256\nresize cells 5 4294967295\n\
        resize cells 1 0\nresize cells 0 0";
    let numbers = [70_000, 70_000, 255, 256, 4_294_967_295];
    let expected = [2, 3, 4, 5, 1, 0].map(|length| plain(&numbers[..length]));
    assert_eq!(answers(script), expected);
}

#[test]
fn refusals_and_the_state_after_them() {
    let script =
        "state\nread - 2 3\nread - 22016 3\nwrite 2 255\nbuild 1 1 1 1 7\ntable 1 - -\nstart 0\nfollow 0 0";
    let empty = "0:cbf29ce484222325";
    let answers = answers(script);
    assert_eq!(
        answers[0],
        format!(
            "state head=0,0,0,0,0,0 edges={empty} built=0,0,0,0,0,0,0 cells={empty} rows={empty} \
             pool={empty} follower=0,0,0,0,0"
        )
    );
    assert!(answers[1].starts_with("read no 20 0 head=0,0,0,0,0,0 edges=2:"));
    assert!(answers[2].starts_with("read no 3 0 head=0,0,0,0,0,0 edges=22016:"));
    assert!(answers[3].starts_with("write no 21 0 out=2:"));
    assert!(answers[4].starts_with("build no 21 0 built=0,0,0,0,0,0,0 scratch=1:"));
    assert_eq!(answers[5], "table no 25 0");
    assert_eq!(answers[6], "start no 30 0 follower=0,0,0,0,0");
    assert_eq!(answers[7], "follow no 25 0 follower=0,0,0,0,0");
}

#[test]
fn a_ceiling_leaves_no_field() {
    let with_ceiling = [&FILE[..44], "020004001e00", &FILE[44..]].concat();
    let script = |file: &str| {
        format!(
            "read {file} 22016 9\ncheck_rule\nwrite 64 3\nwrite 58 3\nwrite 57 3\nbuild 1 24 9 2 5\n\
             list {file}\npoke head 5 1\ncheck_rule\npoke head 6 0\nstate"
        )
    };
    let with = answers(&script(&with_ceiling));
    assert_eq!(with, answers(&script(FILE)));
    assert!(with[0].starts_with("read ok head=2,2,1,1,1,2 edges=22016:"));
    assert!(with[3].starts_with("write ok 58 out=58:"));
    assert!(with[4].starts_with("write no 27 0 out=57:"));
    assert!(with[5].starts_with("build ok built=2,2,1,1,1,3,2 scratch=1:"));
    assert_eq!(with[7..10], ["poke 2", "check_rule no 21 0", "bad"]);
    assert!(with[10].starts_with("state head=2,2,1,1,1,1 edges=22016:"));
}

#[test]
fn the_calls_answer_in_their_form() {
    let script = "write 60 1\ntable 2 0,1 2,4\ntable 2 0 1,2\nbranch 2 0 1\nexact 0 - - 3 1\nstart 2\n\
        walk 0,1,0,1 2,4,4,6\nwalk 0,0,7 8,9,9\nfollow_in_place 0 1\nfollow_in_place 0 9\nlist -\n\
        check_rule\ncheck_table\ncheck_word 1 1 2 0*2 5+1*2\ncheck_word 1 1 2 0,1 5+1*2";
    let answers = after_build(script);
    let expected = [
        "write ok 58 out=60:",
        "table ok 1",
        "table no 31 0",
        "branch ok 0 0 0,0,0,0,0,0,0,0,0,0,0,0 1",
        "exact no 30 0 scratch=3:",
        "start ok follower=2,0,0,0,0",
        "walk ok verdicts=4:",
        "walk no 32 7 verdicts=2:",
        "follow_in_place no 33 7 follower=2,1,4,9,6",
        "follow_in_place ok 0 follower=2,1,4,9,7",
        "list 7:",
        "check_rule ok",
        "check_table ok",
        "check_word ok",
        "check_word no 32 2",
    ];
    assert_eq!(answers.len(), expected.len());
    for (answer, expected) in answers.iter().zip(expected) {
        assert!(answer.starts_with(expected), "{answer} is not {expected}");
    }
    assert!(answers[6].ends_with("follower=2,0,4,6,4"));
}

#[test]
fn the_state_can_be_changed_and_brought_back() {
    let script = "restore\nsave\npoke head 0 1\ncheck_rule\npoke edges 0 65536\npoke edges 0 7\n\
        poke edges 22016 0\npoke follower 4 9\npoke built 6 5\npoke cells 0 3\nresize rows 10 0\n\
        dump rows\ndump follower\nrestore\ncheck_rule\ncheck_table\nresize pool 0 0\ndump pool\n\
        dump head\npoke head 5 1\npoke head 6 0\npoke place 0 0\ndump place";
    let expected = [
        "bad",
        "save",
        "poke 2",
        "check_rule no 21 0",
        "bad",
        "poke 5",
        "bad",
        "poke 0",
        "poke 2",
        "poke 2",
        "resize 10:",
        "dump 0,1,1,1,0,0,1,1,0,0",
        "dump 0,0,0,0,9",
        "restore",
        "check_rule ok",
        "check_table ok",
        "resize 0:cbf29ce484222325",
        "dump -",
        "dump 2,2,1,1,1,2",
        "poke 2",
        "bad",
        "bad",
        "bad",
    ];
    let answers = after_build(script);
    assert_eq!(answers.len(), expected.len());
    for (answer, expected) in answers.iter().zip(expected) {
        assert!(answer.starts_with(expected), "{answer} is not {expected}");
    }
}

#[test]
fn a_wrong_verdict_in_the_state_is_25() {
    let calls = "check_table\ntable 2 0,1 2,4\nfollow 0 2\nfollow_in_place 0 2\nwalk 0,1 2,4";
    let script = format!("start 2\npoke rows 8 1\n{calls}\npoke rows 8 0\n{calls}\ndump rows");
    let expected = [
        "start ok follower=2,0,0,0,0",
        "poke 0",
        "check_table no 25 0",
        "table no 25 0",
        "follow no 25 0 follower=2,0,0,0,0",
        "follow_in_place no 25 0 follower=2,0,0,0,0",
        "walk no 25 0 verdicts=0:cbf29ce484222325 follower=2,0,0,0,0",
        "poke 1",
        "check_table ok",
        "table ok 1",
        "follow ok 0 follower=2,2,2,2,1",
        "follow_in_place ok 0 follower=2,1,2,2,2",
        "walk ok verdicts=2:",
        "dump 0,1,1,1,0,0,1,1,0,0,",
    ];
    let answers = after_build(&script);
    assert_eq!(answers.len(), expected.len());
    for (answer, expected) in answers.iter().zip(expected) {
        assert!(answer.starts_with(expected), "{answer} is not {expected}");
    }
}

#[test]
fn decide_leaves_the_state() {
    let script =
        format!("decide {FILE} 22016 1 24 9 2 3 2 0,1 2,4\ndecide {FILE} 22016 0 24 9 2 3 2 - -\nstate");
    let answers = answers(&script);
    assert!(answers[0].starts_with("decide ok 1 edges=22016:48d36d364c3170c4 scratch=1:"));
    assert!(answers[1].starts_with("decide no 22 0 edges=22016:48d36d364c3170c4 scratch=0:"));
    assert!(answers[2].starts_with("state head=0,0,0,0,0,0 edges=0:"));
}

/// One edge, open at any age but 0 that is below 1 or at least 3: HELD names the group as one member.
#[test]
fn a_group_that_holds_the_rule_back() {
    let edge = record(6, &[0, 1, 0, 0, 3, 0, 5, 0, 2, 3, 0, 0, 1, 3, 0, 3, 3, 4]);
    let file = [record(1, &[2, 1, 1]), record(2, &[0]), record(3, &[1]), edge].concat();
    let hex: String = file.iter().map(|byte| format!("{byte:02x}")).collect();
    let script = format!(
        "read {hex} 22016 9\ncheck_rule\nwrite 62 0\nbranch 2 0 0\nbranch 2 0 1\nbranch 2 0 2\n\
         branch 2 0 5\nbranch 2 0 6\npoke edges 5 13\ncheck_rule\nbranch 2 0 2"
    );
    let answers = answers(&script);
    assert!(answers[0].starts_with("read ok head=2,1,1,1,2,1 edges=22016:"));
    assert_eq!(answers[1], "check_rule ok");
    assert!(answers[2].starts_with("write ok 62 out=62:"));
    let held = [(0, 1), (1, 0), (0, 2), (0, 2), (1, 0)];
    let branches = held.map(|(found, held)| format!("branch ok {found} 0 0,0,0,0,0,0,0,0,0,0,0,0 {held}"));
    assert_eq!(answers[3..8], branches);
    assert_eq!(answers[8..], ["poke 14", "check_rule no 21 0", "branch no 21 0"]);
}

/// The whole case, and the same without a final location.
#[test]
fn the_example_of_inclusion() {
    let script = format!(
        "read {FILE} 22016 0\nbuild 12 24 9 2 0\nkeep 0\npoke built 4 0\npoke rows 2 0\nkeep 1\n\
         include 0 1 144 3 3 9\ninclude 1 0 144 3 3 9"
    );
    let rooms = "scratch=144:36fe4d3f1c233d25 symbols=3:81d23fd7003c2305 stamps=3:81d23fd7003c2305";
    let [empty_word, yes] = ["0 0 - -", "1 0 - -"].map(|answer| format!("include ok {answer} {rooms}"));
    assert_eq!(answers(&script)[2..], ["keep", "poke 1", "poke 1", "keep", &empty_word, &yes]);
}

/// The words shown, the rooms past them, and every refusal of the call.
#[test]
fn inclusion_answers_in_its_form() {
    let stricter = format!("{}0400{}", &FILE[..108], &FILE[112..]);
    let script = format!(
        "keep 0\nread {stricter} 22016 0\nbuild 12 24 9 2 0\nkeep 9\nuse 0\nresize cells 23 0\nkeep 1\n\
         read {FILE} 22016 0\nbuild 12 24 9 2 0\nresize cells 0 0\nresize cells 4 0\nresize rows 3 0\n\
         resize pool 1 0\npoke built 1 1\npoke built 5 1\npoke built 6 1\nkeep 2\ncheck_table\n\
         include 0 9 144 4 3 7\ninclude 9 0 144 2 2 7\ninclude 0 9 144 1 2 7\ninclude 0 9 143 1 1 7\n\
         include 0 2 0 1 1 7\ninclude 1 2 0 1 1 7\ninclude 2 1 0 1 1 7\nuse 9\ntable 2 0,1 2,4\nuse 0\n\
         table 2 0,1 2,4"
    );
    let buffer = |name: &str, fill: u64, length: usize| {
        let bytes = vec![fill; length].into_iter().flat_map(u64::to_le_bytes);
        let hash = bytes.fold(0xcbf2_9ce4_8422_2325_u64, |hash, byte| {
            (hash ^ u64::from(byte)).wrapping_mul(0x100_0000_01b3)
        });
        format!("{name}={length}:{hash:016x}")
    };
    let rooms = |fill, scratch, symbols, stamps| {
        let [scratch, symbols] = [buffer("scratch", fill, scratch), buffer("symbols", fill, symbols)];
        format!("{scratch} {symbols} {}", buffer("stamps", fill, stamps))
    };
    let expected = [
        String::from("check_table ok"),
        format!("include ok 0 2 0,1 2,4 {}", rooms(0, 144, 2, 1)),
        format!("include ok 1 0 - - {}", rooms(0, 144, 2, 2)),
        format!("include no 37 0 {}", rooms(0, 144, 1, 2)),
        format!("include no 36 0 {}", rooms(7, 143, 1, 1)),
        format!("include no 35 0 {}", rooms(7, 0, 1, 1)),
        format!("include no 25 0 {}", rooms(7, 0, 1, 1)),
        format!("include no 25 0 {}", rooms(7, 0, 1, 1)),
        "use".into(),
        "table ok 0".into(),
        "use".into(),
        "table ok 1".into(),
    ];
    let answers = after_build(&script);
    assert_eq!(answers[answers.len() - expected.len()..], expected);
}

/// A slot holds a built record and its tables, and nothing else; it outlasts `restore`.
#[test]
fn slots_hold_what_was_kept() {
    let script = "save\nkeep 3\npoke built 6 7\npoke cells 0 9\nresize rows 1 0\nresize pool 0 0\nstart 5\n\
        poke head 5 1\ncheck_table\nkeep 4\nuse 3\ncheck_table\ncheck_rule\ndump follower\nrestore\n\
        use 4\ndump built\ndump rows\ndump pool\ncheck_rule\nkeep 3\nuse 3\ncheck_table\nuse 5\nuse 3 3";
    let expected = [
        "check_table no 25 0",
        "keep",
        "use",
        "check_table ok",
        "check_rule no 21 0",
        "dump 5,0,0,0,0",
        "restore",
        "use",
        "dump 2,2,1,1,1,3,7",
        "dump 0",
        "dump -",
        "check_rule ok",
        "keep",
        "use",
        "check_table no 25 0",
        "bad",
        "bad",
    ];
    assert_eq!(after_build(script)[8..], expected);
}

#[test]
fn malformed_commands_are_bad() {
    let lines = [
        "reads",
        "read",
        "read - 1",
        "read - 1 65536",
        "read 0 1 1",
        "read 0g 1 1",
        "read é 1 1",
        "read - 1 1 1",
        "read - -1 1",
        "read - +1 1",
        "read - 99999999999999999999 1",
        "write 1 256",
        "build 1 1 1 4294967295 1",
        "build 1 1 1 1 4294967296",
        "start",
        "start x",
        "table 1 0*4294967295 0",
        "table 1 65535+1*2 0",
        "table 1 65536*0 0",
        "table 1 1+1 0",
        "table 1 1,,1 0",
        "table 1 , 0",
        "table 1 1* 0",
        "table 1 + 0",
        "table 1 *3 0",
        "table 1 1*2*3 0",
        "walk 0,0 0",
        "poke head 0",
        "poke head x 0",
        "resize head 1 1",
        "resize edges 1 65536",
        "state 1",
        "save 1",
        "check_rule 1",
        "decide - 1 1 1 1 1 65536 1 - -",
        "keep",
        "keep 10",
        "keep -1",
        "keep x",
        "keep 0 0",
        "use",
        "use 0",
        "use 10",
        "include 0 0 1 1 1 1",
        "\u{0}",
    ];
    for line in lines {
        assert_eq!(answers(line), ["bad"], "{line}");
    }
    for fields in
        ["0 0 1 1 1", "0 0 1 1 1 65536", "0 0 1 1 1 1 1", "0 1 1 1 1 1", "10 0 1 1 1 1", "0 0 67108865 1 1 1"]
    {
        assert_eq!(answers(&format!("keep 0\ninclude {fields}")), ["keep", "bad"], "{fields}");
    }
    let mut output = Vec::new();
    run_script(&b"\xff\xfe 1\n\n  \t\r\n#\xff\nstart 1\r\n"[..], &mut output).unwrap();
    assert_eq!(output, b"bad\nstart ok follower=1,0,0,0,0\n");
}

#[test]
fn scripts_of_rubbish_are_answered_line_by_line() {
    rubbish_is_answered(77, random_line);
}

#[test]
fn batches_of_rubbish_are_answered_line_by_line() {
    rubbish_is_answered(78, random_batch_line);
}

fn rubbish_is_answered(seed: u64, line: impl Fn(&mut Random, &[u8]) -> String) {
    let mut random = Random(seed);
    let bounds = Bounds { locations: 3, symbols: 2, clocks: 2, edges: 6, constant: 2 };
    for _ in 0..150 {
        let file = random_rule(&mut random, &bounds).file();
        let hex: String = file.iter().map(|byte| format!("{byte:02x}")).collect();
        let mut script = format!("read {hex} 22016 1\nbuild 4000 4000 600 900 {}\n", random.next() as u32);
        let lines = 60;
        for _ in 0..lines {
            script.push_str(&line(&mut random, &file));
            script.push('\n');
        }
        assert_eq!(answers(&script).len(), lines + 2);
    }
}

fn random_line(random: &mut Random, file: &[u8]) -> String {
    let small = random.below(12);
    let wild = random.pick(&[0, 1, 2, 3, 5, 40, 4096, 4097, 65_535, u32::MAX]);
    let what = random.pick(&["head", "built", "follower", "edges", "cells", "rows", "pool"]);
    match random.below(17) {
        0..4 => format!("poke {what} {small} {wild}"),
        4 => format!("resize {what} {} {wild}", random.pick(&[0, 1, 5, 22015, 22016, 22100])),
        5 => "check_rule".into(),
        6 => format!("exact 2 0,1,0 1,{small},{wild} {} 3", small * 9),
        7 => format!("branch 2 0,1 {small},{wild}"),
        8 => format!("table {} 0,{small} {small},{wild}", random.pick(&[1, 2, 1000])),
        9 => format!("walk 0,1,1 {small},12,{wild}"),
        10 => format!("start {}", random.pick(&[1, 2, 1000])),
        11 => format!("build 900 {} 450 {} 1", small * 90, small * 20),
        12 => format!("keep {}", small % 3),
        13 => format!("use {}", small % 3),
        14 => format!("include {} {} 9000 {small} {small} 1", random.below(3), random.below(3)),
        15 => {
            let mut file = file.to_vec();
            let place = random.below(file.len() as u64) as usize;
            file[place] = random.next() as u8;
            file.truncate(file.len() - random.below(2) as usize);
            let hex: String = file.iter().map(|byte| format!("{byte:02x}")).collect();
            format!("read {hex} 22016 3")
        }
        _ => random.pick(&["check_table", "write 300 1", "save", "restore", "state", "dump built"]).into(),
    }
}

/// A line about a batch, or any other.
fn random_batch_line(random: &mut Random, file: &[u8]) -> String {
    let small = random.below(12);
    let what = random.pick(&["head", "built", "follower", "edges", "cells", "rows", "pool"]);
    match random.below(21) {
        0 => "batch add".into(),
        1 => format!("batch resize {what} {} {small}", random.pick(&["0", "-1", "-9", "100", "4000"])),
        2 => format!("share {} {}", random.below(4), random.pick(&[0, 1, 2, 31])),
        3 => "batch new".into(),
        _ => random_line(random, file),
    }
}
