//! Each refusal that a script can reach, worked out by hand, and that the lowest of several is given.

mod common;

use common::{replies, script};
use reference::message::HIGHEST;
use reference::session::{Reply, Session};
use reference::system::Refusal;

/// Runs `before`, where nothing is refused, and asserts that each of `lines` is refused with `number`.
fn refused(number: u32, before: &str, lines: &str) {
    let mut session = Session::new(None);
    for reply in replies(&mut session, before) {
        assert!(!reply.starts_with("REFUSED") && reply != "UNREAD", "{reply} before {lines}");
    }
    for line in script(lines) {
        let reply = session.line(&line).to_string();
        assert_eq!(reply, format!("REFUSED {number}"), "{}", String::from_utf8_lossy(&line));
    }
}

const MALFORMED: &str = "0000000000000000000000";
const ACK: &str = "6000000000100000000000";

#[test]
fn bad_settings_1() {
    refused(1, "S 4 13 6 0", "S 5 13 1 0; S 5 16 1 0; S 9999999 13 1 0; S 0 1 0 0; S 0 1 7 0; S 4 13 9999999 0");
    // n: 0, 3f, 14, more.
    refused(1, "S 0 13 1 0", "S 0 0 1 0; S 1 0 1 0; S 1 3 1 0; S 4 12 1 0; S 0 14 1 0; S 4 14 1 0; S 1 9999999 1 0");
    // Marks beyond n.
    refused(1, "S 1 5 1 00001", "S 0 1 1 01; S 1 4 1 00001; S 1 5 1 000001; S 1 12 1 0000000000001");
    // 1 comes before 2.
    refused(1, "S 1 4 1 1", "S 1 4 1 11111; S 1 3 1 11; S 0 0 1 1; S 0 14 1 1; S 0 1 0 1; S 5 16 1 1111111111111");
}

#[test]
fn too_many_faulty_2() {
    refused(2, "S 4 13 6 1111", "S 0 1 1 1; S 1 4 1 11; S 4 13 6 11111; S 3 10 1 0000001111");
    // Spare servers do not raise f.
    refused(2, "S 1 7 1 0000001", "S 0 13 1 1; S 1 7 1 0000011; S 3 13 1 1111000000000");
}

#[test]
fn no_such_process_4() {
    refused(4, "S 1 4 2 1; C 2", "R 0; R 3; W 3 0000000000; K 0 1; K 5 1; K 1 3; D 3 1; D 2 5; C 0; C 9999999");
    refused(4, "S 1 4 2 1", &format!("L 5 1 {MALFORMED}; L 2 3 {MALFORMED}; L 0 0 {ACK}"));
    refused(4, "S 1 6 2 1; C 2", &format!("K 7 1; D 2 7; L 7 1 {MALFORMED}; K 13 1; D 1 13"));
    refused(10, "S 1 6 2 1", "K 5 1; K 6 1; D 1 5; D 1 6");
}

#[test]
fn wrong_role_5() {
    refused(5, "S 1 4 2 01; C 1", &format!("K 2 1; K 2 2; L 1 1 {MALFORMED}; L 1 2 {ACK}"));
    refused(5, "S 1 6 1 000001", &format!("K 6 1; L 5 1 {ACK}"));
}

#[test]
fn stopped_6() {
    refused(6, "S 0 1 2 0; R 1; K 1 1; C 1", "R 1; W 1 7E82E80141; W 1 0000000000; D 1 1; C 1");
}

#[test]
fn busy_7() {
    let starts = "R 1; W 1 7E82E80141; W 1 0000000000";
    refused(7, "S 0 1 1 0; R 1", starts);
    refused(7, "S 0 1 1 0; W 1 7E82E80141", starts);
    refused(7, "S 0 1 1 0; W 1 7E82E80141; K 1 1; D 1 1", starts);
}

#[test]
fn no_entry_8() {
    refused(8, "S 0 1 1 0", "W 1 0000000000; W 1 7E92E80141; W 1 7E82E80140; W 1 7E82E80144; W 1 FFFFFFFFFF");
}

#[test]
fn malformed_9() {
    // Kinds 0, 7 and 15; kinds 1, 3 and 4, which no client takes; WRITE_ACK with a tag, a client, an entry.
    let lies = format!(
        "L 1 1 {MALFORMED}; L 1 1 7000000000000000000000; L 1 1 F000000000000000000000;
         L 1 1 1000010000000000000000; L 1 1 3000000000000000000000; L 1 1 4000000000117E82E80141;
         L 1 1 6000010000100000000000; L 1 1 6000000000110000000000; L 1 1 6000000000100000000001"
    );
    refused(9, "S 1 4 1 1", &lies);
    refused(9, "S 1 4 1 1; C 1", &lies);
    let full = format!("S 1 4 1 1; {}", [format!("L 1 1 {ACK}").as_str(); 8].join(";"));
    refused(9, &full, &lies);
}

#[test]
fn empty_channel_10() {
    refused(10, "S 0 1 2 0; R 1", "D 1 1; D 2 1; K 1 2");
    refused(10, "S 0 1 2 0; R 1; K 1 1; D 1 1; K 1 1; C 1", "K 1 1");
}

#[test]
fn exhausted_11() {
    let mut session = Session::new(None);
    session.line(b"S 0 1 1 0");
    session.system.as_mut().unwrap().clients[0].read_number = HIGHEST - 1;
    assert_eq!(replies(&mut session, "R 1; K 1 1; D 1 1"), ["WENT", "WENT", "READ 0 0 0000000000"]);
    assert_eq!(session.line(b"R 1"), Reply::Refused(Refusal::Exhausted));
    assert_eq!(session.line(b"W 1 7E82E80141"), Reply::Refused(Refusal::Exhausted));
    assert_eq!(session.line(b"W 1 0000000000"), Reply::Refused(Refusal::NoEntry));
    assert_eq!(session.line(b"C 1"), Reply::Answered(reference::system::Answer::Went));
    assert_eq!(session.line(b"R 1"), Reply::Refused(Refusal::Stopped));
}

/// With four servers: a read whose messages to server 4 stay where they are.
const READ_WITHOUT_4: &str = "R 1; K 1 1; K 2 1; K 3 1; D 1 1; D 1 2; D 1 3; K 1 1; K 2 1; K 3 1";

#[test]
fn full_channel_12_at_a_start() {
    let three = [READ_WITHOUT_4; 3].join(";");
    refused(12, &format!("S 1 4 1 0; {three}"), "W 1 7E82E80141");
    refused(12, &format!("S 1 4 1 0; {three}; {READ_WITHOUT_4}"), "R 1; W 1 7E82E80141");
    // Of eight, one is taken: a read needs two.
    refused(12, &format!("S 1 4 1 0; {three}; {READ_WITHOUT_4}; K 4 1"), "R 1");
    // With a spare server the last one is the fifth.
    let spare = "R 1; K 1 1; K 2 1; K 3 1; K 4 1; D 1 1; D 1 2; D 1 3; D 1 4; K 1 1; K 2 1; K 3 1; K 4 1";
    refused(12, &format!("S 1 5 1 0; {}", [spare; 3].join(";")), "W 1 7E82E80141");
    refused(12, &format!("S 1 5 1 0; {}", [spare; 4].join(";")), "R 1");
    // Channels to a faulty server drop, so they are never full.
    let mut session = Session::new(None);
    let last = replies(&mut session, &format!("S 1 4 1 0001; {}", [READ_WITHOUT_4; 9].join(";"))).pop();
    assert_eq!(last.as_deref(), Some("WENT"));
}

#[test]
fn full_channel_12_at_a_forward() {
    let write = "W 1 7E82E80141; K 1 1; D 1 1; K 1 1; K 1 1; D 1 1";
    let before = format!("S 0 1 2 0; R 2; K 1 2; {}; W 1 7E82E80141; K 1 1; D 1 1; K 1 1", [write; 7].join(";"));
    refused(12, &before, "K 1 1; K 1 1");
    let mut session = Session::new(None);
    replies(&mut session, &before);
    assert_eq!(replies(&mut session, "K 1 1; D 2 1; K 1 1"), ["REFUSED 12", "READ 0 0 0000000000", "WENT"]);
}

#[test]
fn full_channel_12_at_a_lie() {
    let eight = [format!("L 1 1 {ACK}").as_str(); 8].join(";");
    refused(12, &format!("S 1 4 2 1; {eight}; L 1 2 {ACK}"), &format!("L 1 1 {ACK}"));
    // To a stopped client everything is dropped.
    let mut session = Session::new(None);
    let last = replies(&mut session, &format!("S 1 4 2 1; {eight}; C 1; {eight}; {eight}")).pop();
    assert_eq!(last.as_deref(), Some("WENT"));
}
