//! Generated scripts: what is in them, what the checker says to them, and that its quick test of the rows is the slow
//! one.

use reference::check::{Checker, Tally, Violation};
use reference::fault::Fault;
use reference::generate::Generator;
use reference::hunt::{breaks, hunt, shrink};
use reference::parse::{parse, Command};
use reference::rows;
use reference::session::Reply;
use reference::system::{Answer, Settings};
use std::collections::{BTreeMap, BTreeSet};

/// A figure of `tests/compare`: how many seeds, how many lines of each.
fn figure(name: &str) -> u64 {
    let compare = include_str!("../../compare");
    let value = compare.lines().find_map(|line| line.strip_prefix(name)?.strip_prefix('='));
    value.and_then(|rest| rest.split(' ').next()?.parse().ok()).expect("tests/compare has it")
}

/// Runs the generated scripts of `tests/compare`, and tests demand 3. `each` gets the seed, the line and the reply.
fn run_all(mut each: impl FnMut(u64, &[u8], Reply)) -> Vec<Tally> {
    let run = |seed| {
        let mut generator = Generator::new(seed);
        let mut checker = Checker::new(None);
        for _ in 0..figure("lines") {
            let line = generator.line();
            each(seed, &line, checker.line(&line).expect("demand 3 holds"));
        }
        checker.tally
    };
    (1..=figure("seeds")).map(run).collect()
}

#[test]
fn every_kind_of_line() {
    let mut clients = BTreeSet::new();
    let mut faulty_servers = BTreeSet::new();
    let tallies = run_all(|_, line, reply| {
        if let (Some(Command::Setup(setup)), Reply::Set) = (parse(line), reply) {
            clients.insert((setup.f, setup.clients));
            faulty_servers.extend((0..13).filter(|server| setup.faulty[*server]));
        }
    });
    assert_eq!(clients.len(), 5 * 6, "f from 0 to 4, clients from 1 to 6");
    assert_eq!(faulty_servers.len(), 13);
    for tally in tallies {
        for number in [1, 2, 4, 5, 6, 7, 8, 9, 10, 12] {
            assert!(tally.refused[number] > 0, "no refusal {number}");
        }
        assert!(tally.unread > 500);
        assert!(tally.steps > 42_000, "{} of {} lines are accepted steps", tally.steps, tally.lines);
        assert!(tally.reads > 500 && tally.writes > 500, "{} reads, {} writes", tally.reads, tally.writes);
        assert!(tally.quiet > 1000);
    }
}

/// Reads and writes end with every f and every n. Each script has all of them.
#[test]
fn every_f_and_n() {
    let mut sizes = BTreeMap::<(u32, u32), Tally>::new();
    let mut of_seed = BTreeMap::<u64, BTreeSet<(u32, u32)>>::new();
    let mut marks_at_a_spare_n = 0;
    let mut size = (0, 0);
    run_all(|seed, line, reply| match (parse(line), reply) {
        (Some(Command::Setup(setup)), Reply::Set) => {
            size = (setup.f, setup.n);
            sizes.entry(size).or_default().setups += 1;
            of_seed.entry(seed).or_default().insert(size);
            marks_at_a_spare_n += u64::from(setup.n > 3 * setup.f + 1 && setup.faulty[setup.n as usize - 1]);
        }
        (_, Reply::Answered(answer)) => {
            let tally = sizes.entry(size).or_default();
            tally.steps += 1;
            tally.reads += u64::from(matches!(answer, Answer::Read(_)));
            tally.writes += u64::from(matches!(answer, Answer::Wrote(_)));
        }
        _ => {}
    });
    let allowed: Vec<(u32, u32)> = (0..=4).flat_map(|f| (3 * f + 1..=13).map(move |n| (f, n))).collect();
    assert_eq!(sizes.keys().copied().collect::<Vec<_>>(), allowed);
    for ((f, n), Tally { setups, steps, reads, writes, .. }) in sizes {
        println!("f {f}, n {n}: {setups} setups, {steps} steps, {reads} reads, {writes} writes");
        assert!(steps > 2000 && reads > 20 && writes > 20, "too little with f {f} and n {n}");
    }
    for (seed, sizes) in of_seed {
        assert_eq!(sizes.len(), allowed.len(), "seed {seed}");
    }
    assert!(marks_at_a_spare_n > 10);
}

/// What is wrong with the settings of a setup.
fn wrong(settings: &Settings) -> BTreeSet<&'static str> {
    let Settings { f, n, clients, faulty } = *settings;
    let marks = faulty.iter().filter(|yes| **yes).count();
    let faults = [
        ("f above 4", f > 4),
        ("n of 0", n == 0),
        ("n of 3f", 0 < n && n == 3 * f),
        ("n of 14", n == 14),
        ("n above 14", n > 14),
        ("clients", !(1..=6).contains(&clients)),
        ("a mark beyond n", 0 < n && faulty.iter().skip(n as usize).any(|yes| *yes)),
        ("more marks than f", marks > f as usize),
    ];
    faults.into_iter().filter(|(_, is_wrong)| *is_wrong).map(|(name, _)| name).collect()
}

/// Each thing that can be wrong with a setup is wrong alone, and some together, so that 1 and 2 both apply. S without n,
/// which is 01's form, and S with one argument more are unread.
#[test]
fn every_wrong_setup() {
    let mut refused = BTreeSet::new();
    let mut unread = BTreeMap::<usize, u64>::new(); // by the number of arguments
    run_all(|_, line, reply| match (parse(line), reply) {
        (Some(Command::Setup(setup)), Reply::Refused(_)) => {
            refused.insert(wrong(&setup));
        }
        (None, _) if line.starts_with(b"S ") => {
            *unread.entry(line.split(|byte| *byte == b' ').count() - 1).or_default() += 1;
        }
        _ => {}
    });
    for name in ["f above 4", "n of 0", "n of 3f", "n of 14", "n above 14", "clients", "a mark beyond n"] {
        assert!(refused.contains(&BTreeSet::from([name])), "{name} is never wrong alone");
        assert!(refused.contains(&BTreeSet::from([name, "more marks than f"])), "{name} is never wrong with 2");
    }
    assert!(refused.contains(&BTreeSet::from(["more marks than f"])));
    assert!(unread.get(&3) > Some(&50) && unread.get(&5) > Some(&50), "{unread:?}");
}

/// Where the quick test is content, the rows of document 001 are right word for word, and some rows exist. Where it
/// says that there are no rows, there are none.
#[test]
fn the_quick_test_and_the_slow_one() {
    let mut row_failures = 0;
    for fault in Fault::ALL.map(Some).into_iter().chain([None]) {
        let mut generator = Generator::hunting(7, fault);
        let mut checker = Checker::new(fault);
        let mut failed = false; // in this setup; what comes after a failure says nothing
        for _ in 0..30_000 {
            let setups = checker.tally.setups;
            let checked = checker.line(&generator.line());
            failed &= checker.tally.setups == setups;
            let history = &checker.history;
            match checked {
                _ if failed || checker.tally.setups > setups => {}
                Ok(Reply::Answered(_)) if history.operations.len() <= 30 => {
                    assert!(rows::all_right(history) && rows::exist(history));
                }
                Ok(_) => {}
                Err(violation) => {
                    failed = true;
                    if let Violation::NotWritten | Violation::Rows { others_exist: false } = violation {
                        assert!(!rows::all_right(history) && !rows::exist(history));
                        row_failures += 1;
                    }
                }
            }
        }
    }
    assert!(row_failures > 10, "only {row_failures} failures to compare");
}

/// Generated schedules show every fault, and the script that is left of them is short.
#[test]
fn every_fault_is_found_by_chance() {
    for (fault, seed) in [
        (Fault::OneVariable, 5),
        (Fault::LateAcknowledgements, 1),
        (Fault::ForwardNoted, 1),
        (Fault::InfoAfterShown, 1),
        (Fault::NewestDropped, 1),
        (Fault::TwoFNoted, 1),
        (Fault::FSets, 1),
        (Fault::FewAcknowledgements, 1),
    ] {
        let find = hunt(Some(fault), seed, 1_000_000).unwrap_or_else(|| panic!("{} is not found", fault.name()));
        let script = shrink(Some(fault), find);
        assert!(script.len() < 150, "{} lines for {}", script.len(), fault.name());
        assert!(breaks(Some(fault), &script).is_some());
        assert_eq!(breaks(None, &script), None);
    }
}

#[test]
fn nothing_is_found_without_a_fault() {
    assert!(hunt(None, 1, 300_000).is_none());
}
