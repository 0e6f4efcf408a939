//! A script that is being written. The peer's own code runs along, so that the
//! next line can be chosen by what the lines before it have done.

use crate::random::Random;
use peer::fault::Fault;
use peer::image::image;
use peer::schedule::Schedule;
use peer::script::{hex, Session, LONGEST_SCRIPT};

pub struct Sheet {
    pub random: Random,
    pub bytes: Vec<u8>,
    pub session: Session,
    /// The images that the script has saved so far.
    pub saved: Vec<Vec<u8>>,
    /// `say` leaves out what would go beyond this.
    pub room: usize,
}

impl Sheet {
    pub fn new(random: Random) -> Sheet {
        Sheet {
            random,
            bytes: Vec::new(),
            session: Session::new(Fault::None),
            saved: Vec::new(),
            room: LONGEST_SCRIPT,
        }
    }

    /// Writes a line and gives its answer (nothing if there is no room for it).
    pub fn say(&mut self, line: impl AsRef<[u8]>) -> String {
        let line = line.as_ref();
        if self.bytes.len() + line.len() + 1 > self.room {
            return String::new();
        }
        self.bytes.extend(line);
        self.bytes.push(b'\n');
        if line == b"save" {
            self.saved.push(image(&self.session.schedule));
        }
        self.session.line(line)
    }

    /// Writes a line made by one of the functions of `lines`.
    pub fn do_one(&mut self, make: fn(&mut Random, &Schedule) -> String) -> String {
        let line = make(&mut self.random, &self.session.schedule);
        self.say(line)
    }

    pub fn load(&mut self, image: &[u8]) -> String {
        if image.is_empty() {
            self.say("load")
        } else {
            self.say(format!("load {}", hex(image)))
        }
    }
}
