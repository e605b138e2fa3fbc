//! `steps SCRIPT ROUNDS`: microseconds of all steps of a script, each through the public `step`; by `run`; and by the reference.
//! Prints the number of steps, then one line each: name, microseconds.

use bench::clock::medians;
use bench::exports::{self, Setup};
use reference::message::Pair;
use reference::parse::{parse, Command};
use reference::system::{Answer, Refusal, Settings, Step, System};
use std::time::Duration;

/// An accepted setup and the steps up to the next, for both sides.
struct Stretch {
    settings: Settings,
    setup: Setup,
    steps: Vec<Step>,
    numbers: Vec<u64>,
}

fn main() {
    let arguments: Vec<String> = std::env::args().skip(1).collect();
    let [script, rounds] = &arguments[..] else { panic!("usage: steps SCRIPT ROUNDS") };
    let rounds = rounds.parse().expect("ROUNDS is a number");
    let stretches = stretches(&std::fs::read(script).expect("the script can be read"));
    let steps: usize = stretches.iter().map(|stretch| stretch.steps.len()).sum();

    let mut answers: [Vec<Vec<u64>>; 3] =
        std::array::from_fn(|_| stretches.iter().map(|stretch| vec![0; 2 * stretch.steps.len()]).collect());
    let times: [Duration; 3] = medians(rounds, stretches.len(), |side, part| {
        let (stretch, out) = (&stretches[part], &mut answers[side][part]);
        match side {
            0 => assert_eq!(exports::run_by_steps(stretch.setup, &stretch.numbers, out), 0),
            1 => assert_eq!(exports::run(stretch.setup, &stretch.numbers, out), 0),
            _ => plain(stretch, out),
        }
    });
    assert!(answers[0] == answers[1], "step and run differ");
    assert!(answers[0] == answers[2], "step and the reference differ");
    println!("{steps}");
    for (name, time) in ["step", "run", "reference"].into_iter().zip(times) {
        println!("{name} {}", time.as_micros());
    }
}

/// The steps of a script. A refused setup leaves the present system, and an unreadable line everything.
fn stretches(script: &[u8]) -> Vec<Stretch> {
    let mut all: Vec<Stretch> = Vec::new();
    for line in script.split(|byte| *byte == b'\n') {
        match (parse(line), all.last_mut()) {
            (Some(Command::Setup(settings)), _) if System::new(settings, None).is_ok() => {
                let faulty = (0..).zip(settings.faulty).map(|(bit, yes)| u32::from(yes) << bit).sum();
                let setup = Setup { f: settings.f, n: settings.n, clients: settings.clients, faulty };
                all.push(Stretch { settings, setup, steps: Vec::new(), numbers: Vec::new() });
            }
            (Some(Command::Step(step)), Some(stretch)) => {
                stretch.steps.push(step);
                stretch.numbers.extend(numbers(step));
            }
            _ => {}
        }
    }
    all
}

/// A step in five numbers: kind and arguments, a message in two words.
fn numbers(step: Step) -> [u64; 5] {
    let two = |kind, a: u32, b: u64| [kind, u64::from(a), b, 0, 0];
    match step {
        Step::Read { client } => two(0, client, 0),
        Step::Write { client, entry } => two(1, client, entry),
        Step::ServerTakes { server, client } => two(2, server, u64::from(client)),
        Step::ClientTakes { client, server } => two(3, client, u64::from(server)),
        Step::Stop { client } => two(4, client, 0),
        Step::Lie { server, client, message } => {
            [5, u64::from(server), u64::from(client), (message >> 64) as u64, message as u64]
        }
    }
}

/// A stretch through the reference; answers in the same numbers.
fn plain(stretch: &Stretch, out: &mut [u64]) {
    let mut system = System::new(stretch.settings, None).expect("the setup is accepted");
    for (step, out) in stretch.steps.iter().zip(out.chunks_exact_mut(2)) {
        out.copy_from_slice(&answer(system.step(*step)));
    }
}

/// An answer in two numbers: which it is, and the pair that it shows.
fn answer(answer: Result<Answer, Refusal>) -> [u64; 2] {
    let number = |Pair { timestamp, entry }: Pair| {
        u64::from(timestamp.counter) << 44 | u64::from(timestamp.client) << 40 | entry
    };
    match answer {
        Ok(Answer::Went) => [0, 0],
        Ok(Answer::Read(pair)) => [1, number(pair)],
        Ok(Answer::Wrote(pair)) => [2, number(pair)],
        Ok(Answer::Spent) => [3, 0],
        Err(refusal) => [16 + refusal as u64, 0],
    }
}
