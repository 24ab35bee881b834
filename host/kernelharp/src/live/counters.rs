//! What ports did, as those who watch a host want to see it.

use crate::answers::{Plan, Responses, Turn};
use crate::layout::PORTS;
use crate::names::Port;
use crate::terms::{Operation, Reason, Refusal, Status};
use std::fmt;

/// The numbers of reasons, with the one withdrawn.
pub const REASONS: usize = 9;
/// The first of them.
const FIRST_REASON: u32 = Reason::UnknownOperation as u32;

/// How a port is.
#[derive(Clone, Copy, Debug, Default, PartialEq, Eq, Hash)]
pub enum State {
    /// Not opened, or closed again.
    #[default]
    Closed,
    /// Served.
    Open,
    /// Served no more, after an overrun.
    Broken,
}

impl fmt::Display for State {
    fn fmt(&self, f: &mut fmt::Formatter) -> fmt::Result {
        f.pad(match self {
            State::Closed => "closed",
            State::Open => "open",
            State::Broken => "broken",
        })
    }
}

/// What a port has done since its backend was new. Opening and closing zero nothing. A sum of sectors that
/// would pass 2^64 - 1 stays there: a guest may discard that many at once.
///
/// They print as a line of a table, whose heads are [`Counters::heads`] and whose column REFUSED has the
/// sum over all reasons; or as a line of JSON ([`Counters::json`]). Both forms are those of the C helper.
#[derive(Clone, Copy, Debug, PartialEq, Eq)]
pub struct Counters {
    /// Whose they are.
    pub port: Port,
    /// How it is now.
    pub state: State,
    /// Requests that were started and are not completed, now.
    pub in_flight: u64,
    /// Reads started.
    pub reads: u64,
    /// Writes started.
    pub writes: u64,
    /// Barriers started.
    pub barriers: u64,
    /// Flushes started.
    pub flushes: u64,
    /// Discards started.
    pub discards: u64,
    /// Sectors of these reads.
    pub sectors_read: u64,
    /// Sectors of these writes and barriers.
    pub sectors_written: u64,
    /// Sectors of these discards.
    pub sectors_discarded: u64,
    /// Requests answered at once, by reason, from 21 on; see [`Counters::refused_for`].
    pub refused: [u64; REASONS],
    /// Responses with the status okay, of turns and of completions.
    pub okay: u64,
    /// Responses with the status error.
    pub errors: u64,
    /// Responses with the status not supported.
    pub not_supported: u64,
    /// Completions, and lists of them, that were refused.
    pub completions_refused: u64,
    /// Overruns.
    pub overruns: u64,
    /// Openings.
    pub opens: u64,
    /// Closes.
    pub closes: u64,
    /// Calls that said to notify the guest.
    pub notifies: u64,
}

impl Counters {
    fn new(port: Port) -> Counters {
        Counters {
            port,
            state: State::Closed,
            in_flight: 0,
            reads: 0,
            writes: 0,
            barriers: 0,
            flushes: 0,
            discards: 0,
            sectors_read: 0,
            sectors_written: 0,
            sectors_discarded: 0,
            refused: [0; REASONS],
            okay: 0,
            errors: 0,
            not_supported: 0,
            completions_refused: 0,
            overruns: 0,
            opens: 0,
            closes: 0,
            notifies: 0,
        }
    }

    /// Requests answered at once for a reason.
    pub fn refused_for(&self, reason: Reason) -> u64 {
        self.refused[place_of(reason)]
    }

    /// One line of JSON, without its end.
    ///
    /// ```
    /// use kernelharp::live::LiveBackend;
    /// use kernelharp::Port;
    ///
    /// let counters = LiveBackend::new()?.counters(Port::try_from(3)?);
    /// let begin = r#"{"port":3,"state":"closed","in_flight":0,"reads":0,"#;
    /// assert!(counters.json().starts_with(begin));
    /// # Ok::<(), Box<dyn std::error::Error>>(())
    /// ```
    pub fn json(&self) -> String {
        let Counters { port, state, .. } = self;
        let mut line = format!("{{\"port\":{},\"state\":\"{state}\"", port.number());
        for Field { name, number, .. } in FIELDS {
            line += &match name {
                REFUSED => format!(",\"{name}\":{{{}}}", self.by_reason()),
                _ => format!(",\"{name}\":{}", number(self)),
            };
        }
        line + "}"
    }

    /// The heads of the table whose lines counters print.
    pub fn heads() -> String {
        let mut line = "PORT  STATE".to_string();
        for Field { head, .. } in FIELDS {
            line += &format!(" {head:>9}");
        }
        line
    }

    fn by_reason(&self) -> String {
        let reasons = (FIRST_REASON..).zip(self.refused);
        let given = reasons.filter(|(number, _)| Reason::from_number(*number).is_some());
        let each: Vec<String> = given
            .map(|(number, count)| format!("\"{number}\":{count}"))
            .collect();
        each.join(",")
    }
}

impl fmt::Display for Counters {
    fn fmt(&self, f: &mut fmt::Formatter) -> fmt::Result {
        write!(f, "{:4} {:>6}", self.port.number(), self.state)?;
        for Field { number, .. } in FIELDS {
            write!(f, " {:9}", number(self))?;
        }
        Ok(())
    }
}

/// One of the numbers.
type Number = fn(&Counters) -> u64;

/// A column of the table, and a number of the line of JSON.
struct Field {
    name: &'static str,
    /// As in xentop, where it has such a column.
    head: &'static str,
    number: Number,
}

/// The one that JSON has by reason, and the table as their sum.
const REFUSED: &str = "refused";

/// In the order of both forms.
const FIELDS: [Field; 18] = [
    field("in_flight", "IN_FLIGHT", |it| it.in_flight),
    field("reads", "VBD_RD", |it| it.reads),
    field("writes", "VBD_WR", |it| it.writes),
    field("barriers", "BARRIERS", |it| it.barriers),
    field("flushes", "FLUSHES", |it| it.flushes),
    field("discards", "DISCARDS", |it| it.discards),
    field("sectors_read", "VBD_RSECT", |it| it.sectors_read),
    field("sectors_written", "VBD_WSECT", |it| it.sectors_written),
    field("sectors_discarded", "DSECT", |it| it.sectors_discarded),
    field(REFUSED, "REFUSED", |it| it.refused.iter().sum()),
    field("okay", "OKAY", |it| it.okay),
    field("errors", "ERRORS", |it| it.errors),
    field("not_supported", "NOT_SUPP", |it| it.not_supported),
    field("completions_refused", "C_REFUSED", |it| {
        it.completions_refused
    }),
    field("overruns", "OVERRUNS", |it| it.overruns),
    field("opens", "OPENS", |it| it.opens),
    field("closes", "CLOSES", |it| it.closes),
    field("notifies", "NOTIFIES", |it| it.notifies),
];

const fn field(name: &'static str, head: &'static str, number: Number) -> Field {
    Field { name, head, number }
}

fn place_of(reason: Reason) -> usize {
    (reason as u32 - FIRST_REASON) as usize
}

/// The counters of all ports, which a backend hands every answer to.
#[derive(Debug)]
pub(super) struct Books {
    ports: [Counters; PORTS],
}

impl Books {
    pub(super) fn new() -> Books {
        let mut ports = Port::all().map(Counters::new);
        Books {
            ports: std::array::from_fn(|_| ports.next().expect("eight ports")),
        }
    }

    pub(super) fn of(&self, port: Port) -> Counters {
        self.ports[port.index()]
    }

    /// The table: heads, and a line for each port that was ever opened.
    pub(super) fn text(&self) -> String {
        let mut table = Counters::heads() + "\n";
        for counters in self.ports.iter().filter(|it| it.opens > 0) {
            table += &format!("{counters}\n");
        }
        table
    }

    fn of_mut(&mut self, port: Port) -> &mut Counters {
        &mut self.ports[port.index()]
    }

    pub(super) fn opened(&mut self, port: Port) {
        let counters = self.of_mut(port);
        counters.state = State::Open;
        counters.opens += 1;
    }

    pub(super) fn closed(&mut self, port: Port) {
        let counters = self.of_mut(port);
        counters.state = State::Closed;
        counters.closes += 1;
    }

    pub(super) fn turned(&mut self, turn: &Turn) {
        match turn {
            Turn::Idle => {}
            Turn::Started(plan) => self.of_mut(plan.name.port).started(plan),
            Turn::Answered {
                port,
                reason,
                status,
                notify,
            } => {
                let counters = self.of_mut(*port);
                counters.refused[place_of(*reason)] += 1;
                counters.responded(*status);
                counters.notifies += u64::from(*notify);
            }
            Turn::Overrun(port) => {
                let counters = self.of_mut(*port);
                counters.state = State::Broken;
                counters.overruns += 1;
            }
        }
    }

    pub(super) fn completed<D: Responses>(&mut self, port: Port, done: &Result<D, Refusal>) {
        let counters = self.of_mut(port);
        let Ok(done) = done else {
            counters.completions_refused += 1;
            return;
        };
        for status in done.statuses() {
            counters.in_flight -= 1;
            counters.responded(*status);
        }
        counters.notifies += u64::from(done.notify());
    }
}

impl Counters {
    fn started(&mut self, plan: &Plan) {
        let (requests, sectors) = match plan.operation {
            Operation::Read => (&mut self.reads, &mut self.sectors_read),
            Operation::Write => (&mut self.writes, &mut self.sectors_written),
            Operation::Barrier => (&mut self.barriers, &mut self.sectors_written),
            Operation::Discard => (&mut self.discards, &mut self.sectors_discarded),
            Operation::Flush => (&mut self.flushes, &mut 0),
        };
        *requests += 1;
        *sectors = sectors.saturating_add(plan.count);
        self.in_flight += 1;
    }

    fn responded(&mut self, status: Status) {
        *match status {
            Status::Okay => &mut self.okay,
            Status::Error => &mut self.errors,
            Status::NotSupported => &mut self.not_supported,
        } += 1;
    }
}

#[cfg(test)]
mod tests {
    use super::*;
    use crate::words::{kind, turn, TURN_WORDS};

    /// Numbers that are all different.
    fn counters() -> Counters {
        Counters {
            state: State::Broken,
            in_flight: 1,
            reads: 2,
            writes: 3,
            barriers: 4,
            flushes: 5,
            discards: 6,
            sectors_read: 7,
            sectors_written: 8,
            sectors_discarded: 9,
            refused: [10, 11, 0, 13, 14, 15, 16, 17, 18],
            okay: 19,
            errors: 20,
            not_supported: 21,
            completions_refused: 22,
            overruns: 23,
            opens: 24,
            closes: 25,
            notifies: u64::MAX,
            ..Counters::new(Port::try_from(7).unwrap())
        }
    }

    #[test]
    fn a_line_of_json() {
        let due = concat!(
            r#"{"port":7,"state":"broken","in_flight":1,"reads":2,"writes":3,"barriers":4,"flushes":5,"#,
            r#""discards":6,"sectors_read":7,"sectors_written":8,"sectors_discarded":9,"#,
            r#""refused":{"21":10,"22":11,"24":13,"25":14,"26":15,"27":16,"28":17,"29":18},"#,
            r#""okay":19,"errors":20,"not_supported":21,"completions_refused":22,"overruns":23,"#,
            r#""opens":24,"closes":25,"notifies":18446744073709551615}"#
        );
        assert_eq!(counters().json(), due);
    }

    #[test]
    fn a_table_has_the_ports_that_were_opened() {
        let mut books = Books::new();
        books.ports[7] = counters();
        books.opened(Port::try_from(0).unwrap());
        let due = "\
PORT  STATE IN_FLIGHT    VBD_RD    VBD_WR  BARRIERS   FLUSHES  DISCARDS VBD_RSECT VBD_WSECT     DSECT   REFUSED      OKAY    ERRORS  NOT_SUPP C_REFUSED  OVERRUNS     OPENS    CLOSES  NOTIFIES
   0   open         0         0         0         0         0         0         0         0         0         0         0         0         0         0         0         1         0         0
   7 broken         1         2         3         4         5         6         7         8         9       114        19        20        21        22        23        24        25 18446744073709551615
";
        assert_eq!(books.text(), due);
    }

    /// A start on port 7 with so many sectors.
    fn start(operation: Operation, count: u64) -> Turn {
        let mut words = [0; TURN_WORDS];
        words[turn::KIND] = kind::STARTED;
        words[turn::PORT] = 7;
        words[turn::OPERATION] = operation as u64;
        words[turn::COUNT] = count;
        Turn::from_words(&words).unwrap()
    }

    #[test]
    fn sums_of_sectors_stop_at_the_last_number() {
        let sums: [(Operation, Number); 4] = [
            (Operation::Read, |it| it.sectors_read),
            (Operation::Write, |it| it.sectors_written),
            (Operation::Barrier, |it| it.sectors_written),
            (Operation::Discard, |it| it.sectors_discarded),
        ];
        for (operation, sum) in sums {
            let mut books = Books::new();
            for (count, due) in [
                (5, 5),
                (u64::MAX - 6, u64::MAX - 1),
                (1, u64::MAX),
                (88, u64::MAX),
            ] {
                books.turned(&start(operation, count));
                assert_eq!(sum(&books.ports[7]), due, "{operation}");
            }
        }
    }

    #[test]
    fn reasons_by_name() {
        let counters = counters();
        assert_eq!(counters.refused_for(Reason::UnknownOperation), 10);
        assert_eq!(counters.refused_for(Reason::ReadOnly), 13);
        assert_eq!(counters.refused_for(Reason::Unaligned), 18);
    }
}
