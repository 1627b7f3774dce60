//! Going on after a difference within a transaction. The client hears an error as of a statement that fails in a server, and what
//! follows is refused, until the client rolls back what the recorded one rolled back later, too: nothing is left then of what
//! both did otherwise.

use super::{ReplaySession, SessionPhase};
use crate::fingerprint::is_rollback;
use crate::pool::MatchedRequest;
use crate::recorded::{CompareBy, RereadError, HEAD};
use crate::report::{bytes_of, refusal, ReportedMessage};
use pgmsg::backend::{Message as Answer, TransactionStatus};
use pgmsg::frontend::Message;

/// Up to what a client is refused that said something else than recorded.
#[derive(Clone, Copy, Debug, PartialEq, Eq)]
pub enum RefuseUntil {
    /// Its rollback.
    Rollback,
    /// Its next Sync; then its rollback.
    Sync,
}

/// Whether a message rolls back a transaction or a part of it.
fn rolls_back(message: &[u8]) -> bool {
    match Message::read_body(Some(message[0]), &message[HEAD..]) {
        Ok(Message::Query(text)) => is_rollback(&text),
        Ok(Message::Parse(parse)) => is_rollback(&parse.query),
        _ => false,
    }
}

impl ReplaySession<'_> {
    /// Takes what isn't recorded: by an error after which the session can go on, or by one that ends it.
    pub(super) fn take_other(&mut self, message: &[u8]) -> Result<(), RereadError> {
        if !self.shared.goes_on || self.out.recorder.is_some() || !self.is_rolled_back_later()? {
            self.differ(ReportedMessage::message(message));
            return Ok(());
        }
        let report = self.report(&ReportedMessage::message(message));
        self.shared.tell_difference(&report);
        self.has_failed = true;
        self.refuse(message, report.refusal());
        Ok(())
    }

    /// Whether the recorded client rolled back, later in the transaction at hand.
    fn is_rolled_back_later(&self) -> Result<bool, RereadError> {
        let (recording, ahead) = (&self.shared.recording, self.shared.pool().ahead(self.slot));
        for request in ahead {
            let is_text =
                matches!(recording.requests.compare_by(request), CompareBy::Fingerprint(_));
            if is_text && rolls_back(&recording.message(request)?) {
                return Ok(true);
            }
        }
        Ok(false)
    }

    /// Takes a message of a client that is refused.
    pub(super) fn take_refused(
        &mut self,
        refuse_until: RefuseUntil,
        message: &[u8],
    ) -> Result<(), RereadError> {
        match message[0] {
            b'X' => self.phase = SessionPhase::Ending,
            b'S' => {
                self.refuse_until = Some(RefuseUntil::Rollback);
                self.add_failed();
            }
            // Data of a COPY that was refused have no answer, and a Flush has none.
            b'd' | b'c' | b'f' | b'H' => {}
            _ if refuse_until == RefuseUntil::Sync => {}
            _ => match self.found_again(message)? {
                Some(fit) => {
                    self.refuse_until = None;
                    self.fit(fit);
                }
                None => self.refuse(
                    message,
                    refusal("25P02", "what follows a difference isn't known, up to a rollback"),
                ),
            },
        }
        Ok(())
    }

    /// Finds where the recorded client rolled back as this one does.
    fn found_again(&mut self, message: &[u8]) -> Result<Option<MatchedRequest>, RereadError> {
        if !rolls_back(message) {
            return Ok(None);
        }
        let fingerprint = self.fingerprint_of(message)?;
        let (shared, ahead) = (self.shared, self.shared.pool().ahead(self.slot));
        let found = shared.recording.undone(
            ahead,
            fingerprint,
            self.fingerprinter.undone(),
            &shared.rules,
        )?;
        Ok(found.map(|request| {
            self.fingerprinter.settle(fingerprint);
            shared.pool().skip_to(self.slot, request)
        }))
    }

    /// Ends an answer within a transaction that has failed.
    fn add_failed(&mut self) {
        self.out.add_made(bytes_of(&Answer::ReadyForQuery(TransactionStatus::Failed)));
    }

    /// Refuses a message by an error, as a server does in a transaction that has failed.
    fn refuse(&mut self, message: &[u8], error: Vec<u8>) {
        self.out.add_made(error);
        self.holds = false;
        self.is_owing = false;
        self.refuse_until = Some(match message[0] {
            b'Q' | b'F' | b'S' => {
                self.add_failed();
                RefuseUntil::Rollback
            }
            _ => RefuseUntil::Sync,
        });
    }
}
