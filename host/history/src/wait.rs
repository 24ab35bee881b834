//! How long a port with something to serve has waited for it.

use crate::places::PORTS;

/// Turns in a row at which a port had something to serve and was not served.
#[derive(Clone, Debug, Default)]
pub struct Wait {
    pub turns: u32,
    others_served: [bool; PORTS],
}

impl Wait {
    /// Rules 12.20 and 12.21.
    pub fn another_turn(&mut self, served: Option<usize>) -> Result<(), String> {
        self.turns += 1;
        if self.turns == 8 {
            return Err("eight turns in a row with something to serve, none serves it".into());
        }
        if let Some(other) = served {
            if self.others_served[other] {
                return Err(format!("port {other} is served twice while it waits"));
            }
            self.others_served[other] = true;
        }
        Ok(())
    }
}
