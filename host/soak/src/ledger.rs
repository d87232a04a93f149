//! Which messages were sent, in which session, and which were counted. It knows
//! only what the clients sent and what payloads say.

use crate::disagreement::{disagree, Disagreement};
use crate::payload::Message;

struct Line {
    /// The session that the message was sealed in.
    session_id: u64,
    is_due: bool,
    is_counted: bool,
}

pub struct Ledger {
    /// A series for each client, by the messages' numbers.
    series: Vec<Vec<Line>>,
}

impl Ledger {
    pub fn new(clients: usize) -> Self {
        Self {
            series: (0..clients).map(|_| Vec::new()).collect(),
        }
    }

    /// A client sends its next message.
    pub fn sent(&mut self, message: Message, session_id: u64) {
        let series = &mut self.series[usize::from(message.series)];
        assert_eq!(message.number, series.len() as u64, "messages are in order");
        series.push(Line {
            session_id,
            is_due: false,
            is_counted: false,
        });
    }

    /// The rules say that the message is to be accepted now.
    pub fn due(&mut self, message: Message) -> Result<(), Disagreement> {
        let line = self.line(message)?;
        if line.is_due {
            return disagree(format!("the rules accept {message:?} twice"));
        }
        line.is_due = true;
        Ok(())
    }

    /// A payload with the message was accepted in a session.
    pub fn count(&mut self, message: Message, session_id: u64) -> Result<(), Disagreement> {
        let line = self.line(message)?;
        if line.session_id != session_id {
            return disagree(format!("{message:?} came in session {session_id:016x}"));
        }
        if line.is_counted {
            return disagree(format!("{message:?} was counted twice"));
        }
        line.is_counted = true;
        Ok(())
    }

    /// Compares what was due with what was counted, and gives how many that are.
    pub fn close(&self) -> Result<u64, Disagreement> {
        let mut counted = 0;
        for (series, lines) in self.series.iter().enumerate() {
            for (number, line) in lines.iter().enumerate() {
                if line.is_due != line.is_counted {
                    let fate = if line.is_due { "lost" } else { "not due" };
                    return disagree(format!("message {number} of series {series} was {fate}"));
                }
                counted += u64::from(line.is_counted);
            }
        }
        Ok(counted)
    }

    fn line(&mut self, message: Message) -> Result<&mut Line, Disagreement> {
        self.series
            .get_mut(usize::from(message.series))
            .and_then(|lines| lines.get_mut(usize::try_from(message.number).ok()?))
            .ok_or_else(|| Disagreement(format!("{message:?} was never sent")))
    }
}

#[cfg(test)]
mod tests {
    use super::Ledger;
    use crate::payload::Message;

    fn message(series: u16, number: u64) -> Message {
        Message { series, number }
    }

    /// Two messages of series 1 in session 7.
    fn ledger() -> Ledger {
        let mut ledger = Ledger::new(2);
        ledger.sent(message(1, 0), 7);
        ledger.sent(message(1, 1), 7);
        ledger
    }

    #[test]
    fn what_is_due_and_counted_once_is_in_order() {
        let mut ledger = ledger();
        ledger.due(message(1, 1)).unwrap();
        ledger.count(message(1, 1), 7).unwrap();
        assert_eq!(ledger.close().unwrap(), 1);
    }

    #[test]
    fn every_fault_is_found() {
        assert!(ledger().count(message(1, 0), 8).is_err(), "another session");
        assert!(ledger().count(message(1, 2), 7).is_err(), "never sent");
        assert!(ledger().count(message(2, 0), 7).is_err(), "never sent");
        let mut twice = ledger();
        twice.count(message(1, 0), 7).unwrap();
        assert!(twice.count(message(1, 0), 7).is_err());
        assert!(twice.close().is_err(), "not due");
        let mut lost = ledger();
        lost.due(message(1, 0)).unwrap();
        assert!(lost.due(message(1, 0)).is_err());
        assert!(lost.close().is_err());
    }
}
