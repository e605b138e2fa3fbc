//! Random scripts that do something: setup after setup, in each a schedule of mostly accepted steps in which reads and
//! writes overlap, messages are late, faulty servers lie and clients stop, with refused steps and unreadable lines
//! strewn in. Every f and every n has its turn. The generator runs what it writes, so that it knows which steps are open
//! to it.

use crate::client::Phase;
use crate::fault::Fault;
use crate::message::{Message, Pair, HIGHEST};
use crate::plan::{Move, Plan};
use crate::random::Random;
use crate::samples::{licence_entry, malformed, no_licence_entry};
use crate::session::{Reply, Session};
use crate::system::{Refusal, Settings, MOST_CLIENTS, MOST_FAULTY, MOST_SERVERS};
use crate::unreadable::damage;
use std::io::{self, Write};

/// An endless script.
pub struct Generator {
    random: Random,
    session: Session,
    plan: Plan,
    hunting: bool,
    /// Which of all f and n is next.
    turn: usize,
}

impl Generator {
    /// The script of a seed: all settings, all kinds of lines.
    pub fn new(seed: u64) -> Generator {
        let mut random = Random::new(seed);
        let plan = Plan::new(&mut random, 20);
        let turn = random.below(1000);
        Generator { random, session: Session::new(None), plan, hunting: false, turn }
    }

    /// A script to hunt for a fault with: the schedule is that of the faulty system, setups are short and small, as many
    /// servers are faulty as may be, and nearly all steps are accepted.
    pub fn hunting(seed: u64, fault: Option<Fault>) -> Generator {
        Generator { session: Session::new(fault), hunting: true, ..Generator::new(seed) }
    }

    /// The next line, without its end.
    pub fn line(&mut self) -> Vec<u8> {
        loop {
            let line = self.propose();
            let full = self.session.line(&line) == Reply::Refused(Refusal::FullChannel);
            // A full channel would be met again and again: show only some of it. A refused step changes nothing.
            if full && self.random.chance(800) {
                continue;
            }
            self.plan.lines_left = self.plan.lines_left.saturating_sub(1);
            return line;
        }
    }

    fn propose(&mut self) -> Vec<u8> {
        if self.plan.lines_left == 0 {
            return self.setup();
        }
        self.plan.drift(&mut self.random);
        match self.random.below(1000) {
            _ if self.hunting => self.useful(),
            0..20 => {
                let line = self.useful();
                damage(&mut self.random, &line)
            }
            20..60 => self.refused(),
            60..64 => self.refused_setup(),
            64..74 => self.anything(),
            74..76 if self.plan.stops => self.stop(),
            _ => self.useful(),
        }
    }

    /// An S that is accepted, and a plan for what follows: more servers take more lines.
    fn setup(&mut self) -> Vec<u8> {
        let size = self.size();
        let settings = self.settings(size);
        let lines = if self.hunting {
            30 << self.random.below(4)
        } else {
            (30 + 5 * settings.n as usize) << self.random.below(5)
        };
        self.plan = Plan::new(&mut self.random, lines);
        self.setup_line(settings)
    }

    /// Settings that are accepted.
    fn settings(&mut self, (f, n): (usize, usize)) -> Settings {
        let clients = self.random.pick(if self.hunting { &[2, 2, 3] } else { &[1, 2, 2, 3, 3, 4, 5, 6] });
        let marks = if self.hunting || self.random.chance(800) { f } else { self.random.below(f + 1) };
        let mut faulty = [false; MOST_SERVERS];
        while faulty.iter().filter(|yes| **yes).count() < marks {
            faulty[self.random.below(n)] = true;
        }
        Settings { f: f as u32, n: n as u32, clients, faulty }
    }

    /// f and n. Every other setup, about, takes the next of all that there are, so that each comes again and again. The
    /// others have mostly the least n, where nothing is to spare.
    fn size(&mut self) -> (usize, usize) {
        if !self.hunting && self.random.chance(500) {
            let sizes = all_sizes();
            self.turn += 1;
            return sizes[self.turn % sizes.len()];
        }
        let f = self.random.pick(if self.hunting { &[0, 1, 1, 1, 1, 2] } else { &[0, 0, 1, 1, 1, 1, 2, 2, 3, 4] });
        let spare = self.random.pick(&[0, 0, 0, 1, 2]);
        (f, (3 * f + 1 + spare).min(MOST_SERVERS))
    }

    fn setup_line(&mut self, settings: Settings) -> Vec<u8> {
        let Settings { f, n, clients, faulty } = settings;
        let shortest = faulty.iter().rposition(|yes| *yes).map_or(1, |last| last + 1);
        let length = self.random.between(shortest, MOST_SERVERS);
        let marks: String = faulty[..length].iter().map(|yes| if *yes { '1' } else { '0' }).collect();
        let [f, n, clients] = [f, n, clients].map(|number| self.number(number as usize));
        format!("S {f} {n} {clients} {marks}").into_bytes()
    }

    /// An S with one or two things wrong: refused 1 or 2.
    fn refused_setup(&mut self) -> Vec<u8> {
        let size = self.random.pick(&all_sizes());
        let mut settings = self.settings(size);
        for _ in 0..self.random.between(1, 2) {
            self.spoil(&mut settings);
        }
        self.setup_line(settings)
    }

    /// Puts one thing wrong; nothing here puts another right.
    fn spoil(&mut self, settings: &mut Settings) {
        let Settings { f, n, clients, faulty } = settings;
        let servers = (*n as usize).min(MOST_SERVERS);
        let too_few = 3 * (*f).min(MOST_FAULTY as u32);
        match self.random.below(6) {
            0 => *f = self.random.pick(&[5, 6, 13, 256, 65_537, 9_999_999]),
            1 => *n = self.random.pick(&[0, too_few, too_few / 2]),
            2 => *n = self.random.pick(&[14, 14, 15, 256 + 13, 65_536 + 13, 9_999_999]),
            3 => *clients = self.random.pick(&[0, 7, 13, 257, 65_537, 9_999_999]),
            4 if servers < MOST_SERVERS => {
                faulty.fill(false);
                faulty[self.random.between(servers, MOST_SERVERS - 1)] = true;
            }
            _ => {
                let marks = self.random.between((*f as usize + 1).min(servers), servers);
                while faulty[..servers].iter().filter(|yes| **yes).count() < marks {
                    faulty[self.random.below(servers)] = true;
                }
            }
        }
    }

    /// A step that is open, mostly.
    fn useful(&mut self) -> Vec<u8> {
        let Some(system) = &self.session.system else {
            return self.setup();
        };
        let moves = self.plan.open_moves(system);
        match self.random.weighted(moves.iter().map(|(weight, _)| *weight)) {
            Some(chosen) => self.write(moves[chosen].1),
            None => {
                // All is quiet: go on, unless all clients have stopped.
                if !self.plan.draining {
                    self.plan.lines_left = 0;
                }
                self.plan.draining = false;
                self.anything()
            }
        }
    }

    /// The line for a move.
    fn write(&mut self, chosen: Move) -> Vec<u8> {
        let system = self.session.system.as_ref().expect("a move is open");
        match chosen {
            Move::ServerTakes { server, client } => {
                if let Some(Message::WriteInfo(pair)) = system.up[client][server].front() {
                    self.plan.faulty.hears(*pair);
                }
                format!("K {} {}", self.number(server + 1), self.number(client + 1))
            }
            Move::ClientTakes { client, server } => {
                format!("D {} {}", self.number(client + 1), self.number(server + 1))
            }
            Move::Start { client } if self.random.chance(self.plan.writes) => {
                let entry = licence_entry(&mut self.random);
                format!("W {} {entry:010X}", self.number(client + 1))
            }
            Move::Start { client } => format!("R {}", self.number(client + 1)),
            Move::Lie { server, client } => {
                self.plan.lies(system, server, client);
                let lie = self.plan.faulty.lie(&mut self.random, system, client).pack();
                format!("L {} {} {lie:022X}", self.number(server + 1), self.number(client + 1))
            }
        }
        .into_bytes()
    }

    /// A client stops; seldom the last one that works.
    fn stop(&mut self) -> Vec<u8> {
        let working = self.session.system.iter().flat_map(|system| &system.stopped).filter(|gone| !**gone).count();
        if working == 1 && self.random.chance(900) {
            return self.useful();
        }
        let client = self.random.between(1, MOST_CLIENTS);
        format!("C {}", self.number(client)).into_bytes()
    }

    /// A step that is refused, mostly: one way for each of 4 to 10. 12 comes of itself, and 11 takes a million reads.
    fn refused(&mut self) -> Vec<u8> {
        let Some(system) = &self.session.system else {
            return self.anything();
        };
        let (n, clients) = (system.servers.len(), system.clients.len());
        let stopped: Vec<usize> = (0..clients).filter(|client| system.stopped[*client]).collect();
        let busy: Vec<usize> = (0..clients).filter(|client| system.clients[*client].phase != Phase::Idle).collect();
        let server = self.random.between(1, n);
        let client = self.random.between(1, clients);
        let far = self.random.pick(&[0, clients + 1, n + 1, 14, 9_999_999]);
        let entry = licence_entry(&mut self.random);
        match self.random.below(7) {
            0 => self
                .random
                .pick(&[
                    format!("R {far}").as_str(),
                    &format!("W {far} {entry:010X}"),
                    &format!("K {server} {far}"),
                    &format!("K {far} {client}"),
                    &format!("D {far} {server}"),
                    &format!("D {client} {far}"),
                    &format!("C {far}"),
                    &format!("L {far} {client} {:022X}", Message::WriteAck { counter: 1 }.pack()),
                ])
                .into(),
            1 if system.faulty[server - 1] => format!("K {server} {client}"),
            1 => format!("L {server} {client} {:022X}", Message::Fwd(Pair::INITIAL).pack()),
            2 if !stopped.is_empty() => {
                let gone = self.random.pick(&stopped) + 1;
                self.random
                    .pick(&[
                        format!("R {gone}").as_str(),
                        &format!("W {gone} {entry:010X}"),
                        &format!("D {gone} {server}"),
                        &format!("C {gone}"),
                    ])
                    .into()
            }
            3 if !busy.is_empty() => {
                let at_work = self.random.pick(&busy) + 1;
                self.random.pick(&[format!("R {at_work}").as_str(), &format!("W {at_work} {entry:010X}")]).into()
            }
            4 => format!("W {client} {:010X}", no_licence_entry(&mut self.random)),
            5 => {
                let faulty = system.faulty.iter().position(|yes| *yes).map_or(server, |index| index + 1);
                format!("L {faulty} {client} {:022X}", malformed(&mut self.random))
            }
            _ => self.random.pick(&[format!("K {server} {client}").as_str(), &format!("D {client} {server}")]).into(),
        }
        .into_bytes()
    }

    /// Any step with any numbers, so that several refusals apply at once. Stops are left out: they would be too many.
    fn anything(&mut self) -> Vec<u8> {
        let client = self.random.below(MOST_CLIENTS + 3);
        let server = self.random.below(MOST_SERVERS + 3);
        let entry =
            if self.random.chance(500) { licence_entry(&mut self.random) } else { no_licence_entry(&mut self.random) };
        let message = if self.random.chance(500) {
            malformed(&mut self.random)
        } else {
            Message::Info { tag: client as u32, pair: Pair { entry, ..Pair::INITIAL } }.pack()
        };
        match self.random.below(5) {
            0 => format!("R {client}"),
            1 => format!("W {client} {entry:010X}"),
            2 => format!("K {server} {client}"),
            3 => format!("D {client} {server}"),
            _ => format!("L {server} {client} {message:022X}"),
        }
        .into_bytes()
    }

    /// A number, now and then with leading zeros.
    fn number(&mut self, number: usize) -> String {
        let width = if self.random.chance(10) { self.random.between(1, 7) } else { 1 };
        format!("{number:0width$}")
    }
}

/// All f and n that a setup may choose.
fn all_sizes() -> Vec<(usize, usize)> {
    (0..=MOST_FAULTY).flat_map(|f| (3 * f + 1..=MOST_SERVERS).map(move |n| (f, n))).collect()
}

/// The script in which the counters and the read numbers run out: client 1 writes until both are at their highest, so
/// that its next R and W are refused 11 and the other client's write is SPENT. Six million lines.
pub fn exhausted(output: &mut impl Write) -> io::Result<()> {
    writeln!(output, "S 0 1 2 0")?;
    for _ in 0..HIGHEST {
        output.write_all(b"W 1 7E82E80141\nK 1 1\nD 1 1\nK 1 1\nK 1 1\nD 1 1\n")?;
    }
    writeln!(output, "R 1\nW 1 7E82E80141\nW 1 7E92E80141\nC 3\nW 2 7E82E80141\nK 1 2\nD 2 1\nR 2\nK 1 2\nK 1 2\nD 2 1")
}
