//! A list of calls as `replay` reads it, run through the second program and the archive.

use crate::Both;
use kernelharp::layout::{GRANTS_BYTES, PORT_GRANTS, RINGS_BYTES, RING_BYTES};
use kernelharp::Completion;
use second::{Done, DoneMany, Plan, Refusal, Turned};
use std::fmt::Write;
use std::str::FromStr;

/// The words of one line after its letter.
struct Words<'a>(std::str::Split<'a, char>);

impl Words<'_> {
    fn next<T: FromStr>(&mut self) -> T {
        number(self.0.next().expect("one more number"))
    }

    fn completion(&mut self) -> Completion {
        Completion {
            port: self.next(),
            tag: self.next(),
            serial: self.next(),
            result: self.next(),
        }
    }

    /// Bytes from a place of a port's share on.
    fn write_to(mut self, buffer: &mut [u8], share: usize) {
        let at = self.next::<usize>() * share + self.next::<usize>();
        let bytes: Vec<u8> = self.rest();
        buffer[at..at + bytes.len()].copy_from_slice(&bytes);
    }

    fn rest<T: FromStr>(self) -> Vec<T> {
        self.0.map(number).collect()
    }
}

fn number<T: FromStr>(word: &str) -> T {
    word.parse()
        .unwrap_or_else(|_| panic!("{word} is no number"))
}

fn notify(wanted: bool) -> &'static str {
    if wanted {
        " notify"
    } else {
        ""
    }
}

fn plain(call: &str, answer: Result<(), Refusal>) -> String {
    match answer {
        Ok(()) => format!("{call} done"),
        Err(refusal) => format!("{call} refused {}", refusal as u32),
    }
}

fn turned(answer: Result<Turned, Refusal>) -> String {
    match answer {
        Err(refusal) => format!("turn refused {}", refusal as u32),
        Ok(Turned::Idle) => "turn idle".to_string(),
        Ok(Turned::Overrun { port }) => format!("turn overrun port {port}"),
        Ok(Turned::Answered {
            port,
            reason,
            status,
            notify: wanted,
        }) => format!(
            "turn answered port {port} reason {} status {}{}",
            reason as u32,
            status as i16,
            notify(wanted)
        ),
        Ok(Turned::Started(plan)) => started(&plan),
    }
}

fn started(plan: &Plan) -> String {
    let mut line = format!(
        "turn started port {} tag {} serial {} operation {} start {} count {}{} extents {}",
        plan.port,
        plan.tag,
        plan.serial,
        plan.operation as u8,
        plan.start,
        plan.count,
        if plan.secure { " secure" } else { "" },
        plan.extents.len()
    );
    for extent in &plan.extents {
        write!(
            line,
            " | {} {} {} {}",
            extent.frame, extent.first_sector, extent.length, extent.disk_sector
        )
        .unwrap();
    }
    line
}

fn completed(answer: Result<Done, Refusal>) -> String {
    match answer {
        Err(refusal) => format!("complete refused {}", refusal as u32),
        Ok(done) => format!(
            "complete done port {} status {}{}",
            done.port,
            done.status as i16,
            notify(done.notify)
        ),
    }
}

fn listed(answer: Result<DoneMany, Refusal>) -> String {
    match answer {
        Err(refusal) => format!("list refused {}", refusal as u32),
        Ok(done) => {
            let mut line = "list done".to_string();
            for status in done.statuses {
                write!(line, " {}", status as i16).unwrap();
            }
            line + notify(done.notify)
        }
    }
}

/// Both programs and the buffers lent to them, from the empty backend on. [`Replayed::lines`] gives what
/// the proved program `replay` writes for the same list.
pub struct Replayed {
    backend: Both,
    rings: Vec<u8>,
    grants: Vec<u8>,
}

impl Replayed {
    /// The lines that a list of calls is answered with, each beside the line that it answers.
    pub fn lines(calls: &str) -> impl Iterator<Item = (&str, String)> {
        let mut replayed = Replayed {
            backend: Both::new(),
            rings: vec![0; RINGS_BYTES],
            grants: vec![0; GRANTS_BYTES],
        };
        let answered = move |call| Some((call, replayed.line(call)?));
        calls.lines().filter_map(answered)
    }

    /// The answer with the ring bytes that the call changed.
    fn line(&mut self, call: &str) -> Option<String> {
        let before = self.rings.clone();
        let mut line = self.obey(call)?;
        for (at, (was, is)) in before.iter().zip(&self.rings).enumerate() {
            if was != is {
                write!(line, " {at}:{is}").unwrap();
            }
        }
        Some(line)
    }

    /// Does what one line of the list says: a write of a guest's or the host's own has no answer, a
    /// remark is kept.
    fn obey(&mut self, call: &str) -> Option<String> {
        let Replayed {
            backend,
            rings,
            grants,
        } = self;
        let mut parts = call.split(' ');
        let letter = parts.next().unwrap();
        let mut words = Words(parts);
        match letter {
            "b" => {
                words.write_to(rings, RING_BYTES);
                None
            }
            "g" => {
                words.write_to(grants, PORT_GRANTS);
                None
            }
            "o" => {
                let port = words.next();
                Some(plain("open", backend.open(port, &words.rest::<u8>())))
            }
            "c" => Some(plain("close", backend.close(words.next()))),
            "t" => Some(turned(backend.turn(rings, grants))),
            "T" => {
                let rings = &mut rings[..words.next()];
                Some(turned(backend.turn(rings, &grants[..words.next()])))
            }
            "f" | "F" | "l" | "L" => {
                let length = match letter {
                    "F" | "L" => words.next(),
                    _ => RINGS_BYTES,
                };
                let rings = &mut rings[..length];
                Some(match letter {
                    "f" | "F" => completed(backend.complete(rings, words.completion())),
                    _ => {
                        let port = words.next();
                        listed(backend.complete_many(rings, port, &words.rest::<u64>()))
                    }
                })
            }
            "m" => {
                let [taken, okay, error, not_supported] = backend.records.of(words.next());
                Some(format!("meter {taken} {okay} {error} {not_supported}"))
            }
            "z" => {
                backend.records.zero(words.next());
                None
            }
            _ => Some(call.to_string()),
        }
    }
}
