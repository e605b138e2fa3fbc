//! The checker finds each fault that is put into the reference, in a script written for it. `generated.rs` finds them
//! by chance.
//!
//! In the scripts f is 1, n is 4 and server 1 is faulty, unless the setup says otherwise. Without the fault demand 3
//! holds of each script.

mod common;

use common::script;
use reference::check::{Checker, Violation};
use reference::fault::Fault;
use reference::hunt::breaks;

const NO_ROWS: Violation = Violation::Rows { others_exist: false };

/// The script breaks demand 3 at its last line with the fault, and nowhere without it.
fn shows(fault: Fault, violation: Violation, text: &str) {
    let script = script(text);
    assert_eq!(breaks(Some(fault), &script), Some((script.len() - 1, violation)));
    let mut checker = Checker::new(None);
    for line in &script {
        checker.line(line).expect("demand 3 holds without the fault");
    }
    checker.finish().expect("demand 3 holds without the fault");
    assert_eq!(checker.tally.unread + checker.tally.refused.iter().sum::<u64>(), 0);
}

#[test]
fn one_variable() {
    shows(
        Fault::OneVariable,
        NO_ROWS,
        "S 1 4 2 1000
         -- Client 1 reads, with read number 1.
         R 1; K 2 1; K 3 1; K 4 1; D 1 2; D 1 3; D 1 4
         -- It writes, with read number 2, and leaves server 4's INFO of the initial pair on the channel.
         W 1 7E82E80141; K 2 1; K 2 1; K 3 1; K 3 1; K 4 1; K 4 1
         L 1 1 2000020000000000000000; D 1 1; D 1 2; D 1 3
         K 2 1; K 2 1; K 3 1; K 3 1; L 1 1 6000000000100000000000; D 1 1; D 1 2; D 1 3
         -- Client 2 writes to servers 2 and 4; server 1 only says so. Server 3 still holds the first write.
         W 2 7E82E80142; K 2 2; K 3 2; L 1 2 2000010000117E82E80141; D 2 1; D 2 2; D 2 3
         K 2 2; K 2 2; K 4 2; K 4 2; K 4 2; D 2 4; D 2 4; D 2 2; L 1 2 6000000000200000000000; D 2 1
         -- Client 1 reads. Its variable is 1 from the write, so the read number is 2 again and the old INFO fits.
         R 1; K 3 1; L 1 1 2000020000117E82E80141; D 1 1; D 1 3; D 1 4",
    );
}

#[test]
fn late_acknowledgements() {
    shows(
        Fault::LateAcknowledgements,
        NO_ROWS,
        "S 1 4 2 1000
         -- Client 1 writes, with acknowledgements from 1, 2 and 3. That of server 4 stays on the channel.
         W 1 7E82E80141; K 2 1; K 3 1; K 4 1; D 1 2; D 1 3; D 1 4
         K 2 1; K 2 1; K 3 1; K 3 1; K 4 1; K 4 1; L 1 1 6000000000100000000000; D 1 1; D 1 2; D 1 3
         -- It writes again and takes that one while it reads.
         W 1 7E82E80142; D 1 4; K 2 1; K 3 1; K 4 1; D 1 2; D 1 3; D 1 4
         -- With server 1's lie, server 2 alone ends the write.
         K 2 1; K 2 1; D 1 2; L 1 1 6000000000200000000000; D 1 1
         -- Client 2 reads from servers 1, 3 and 4: the first write.
         R 2; K 3 2; K 4 2; L 1 2 2000010000117E82E80141; D 2 1; D 2 3; D 2 4",
    );
}

#[test]
fn forward_noted() {
    shows(
        Fault::ForwardNoted,
        NO_ROWS,
        "S 0 1 2 0
         -- Client 2 begins to read, so both writes of client 1 are forwarded to it.
         R 2; K 1 2
         W 1 7E82E80141; K 1 1; D 1 1; K 1 1; K 1 1; D 1 1
         W 1 7E82E80142; K 1 1; D 1 1; K 1 1; K 1 1; D 1 1
         -- It shows the initial pair, as it may, and reads again. The old forward is noted and shown.
         D 2 1; R 2; D 2 1",
    );
}

#[test]
fn info_after_shown() {
    shows(
        Fault::InfoAfterShown,
        Violation::IllFormed,
        "S 1 4 1 0
         R 1; K 1 1; K 2 1; K 3 1; K 4 1; D 1 1; D 1 2; D 1 3 -- shown
         D 1 4 -- shown again",
    );
}

#[test]
fn newest_dropped() {
    shows(
        Fault::NewestDropped,
        Violation::NeverEnds(2),
        "S 0 1 2 0
         -- Client 2 reads; its DONE stays on the channel, so it is forwarded everything that is written.
         R 2; K 1 2; D 2 1
         W 1 7E82E80141; K 1 1; D 1 1; K 1 1; K 1 1; D 1 1
         W 1 7E82E80141; K 1 1; D 1 1; K 1 1; K 1 1; D 1 1
         W 1 7E82E80141; K 1 1; D 1 1; K 1 1; K 1 1; D 1 1
         W 1 7E82E80141; K 1 1; D 1 1; K 1 1; K 1 1; D 1 1
         W 1 7E82E80141; K 1 1; D 1 1; K 1 1; K 1 1; D 1 1
         -- It reads again, and takes the five forwards first: the fifth leaves the set, and again as INFO.
         R 2; K 1 2; K 1 2; D 2 1; D 2 1; D 2 1; D 2 1; D 2 1; D 2 1",
    );
}

#[test]
fn two_f_noted() {
    shows(
        Fault::TwoFNoted,
        NO_ROWS,
        "S 1 4 2 1000
         -- Client 1 writes to servers 2 and 4; server 1 only says so.
         W 1 7E82E80141; K 2 1; K 4 1; L 1 1 2000010000000000000000; D 1 1; D 1 2; D 1 4
         K 2 1; K 2 1; K 4 1; K 4 1; L 1 1 6000000000100000000000; D 1 1; D 1 2; D 1 4
         -- Client 2 reads: servers 1 and 3 show the initial pair, and server 4 is not listened to.
         R 2; K 3 2; K 4 2; L 1 2 2000010000000000000000; D 2 1; D 2 4; D 2 3",
    );
}

#[test]
fn f_sets() {
    shows(
        Fault::FSets,
        Violation::NotWritten,
        "S 1 4 1 1000
         R 1; K 2 1; K 3 1; D 1 2; D 1 3; L 1 1 2000010000917E82E80141; D 1 1 -- a forged pair from server 1 alone",
    );
}

#[test]
fn few_acknowledgements() {
    shows(
        Fault::FewAcknowledgements,
        NO_ROWS,
        "S 1 4 2 1000
         -- Client 1 writes to server 2; server 1 only says so, and two are enough.
         W 1 7E82E80141; K 2 1; K 3 1; L 1 1 2000010000000000000000; D 1 1; D 1 2; D 1 3
         K 2 1; K 2 1; L 1 1 6000000000100000000000; D 1 1; D 1 2
         -- Client 2 reads from servers 1, 3 and 4: the initial pair.
         R 2; K 3 2; K 4 2; L 1 2 2000010000000000000000; D 2 1; D 2 3; D 2 4",
    );
}

/// 2f + 1 acknowledgements are enough only with the least n.
#[test]
fn few_acknowledgements_with_a_spare_server() {
    shows(
        Fault::FewAcknowledgements,
        NO_ROWS,
        "S 1 5 2 1000
         -- Client 1 writes to servers 2 and 3; server 1 only says so, and three are enough.
         W 1 7E82E80141; K 2 1; K 3 1; K 4 1; L 1 1 2000010000000000000000; D 1 1; D 1 2; D 1 3; D 1 4
         K 2 1; K 2 1; K 3 1; K 3 1; L 1 1 6000000000100000000000; D 1 1; D 1 2; D 1 3
         -- Client 2 reads from servers 1, 3, 4 and 5: the initial pair, which three of them show.
         R 2; K 3 2; K 4 2; K 5 2; L 1 2 2000010000000000000000; D 2 1; D 2 3; D 2 4; D 2 5",
    );
}
