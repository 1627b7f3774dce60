//! What a client says.

use super::{ByteComparison, ReplaySession, SessionPhase};
use crate::fingerprint::IgnoredRequest;
use crate::pool::{MatchedRequest, RequestMatch};
use crate::recorded::{
    is_state_of_standby, CompareBy, ConnectionEnding, MessageSlice, MessageSplitter, Recording,
    RereadError, HEAD,
};
use crate::report::{Difference, ReportedMessage};
use pgmsg::backend::{Message, TransactionStatus};
use pgmsg::List;

/// How many messages of a connection are read to see whether a client can follow it from there on.
const FOLLOWED_MOST: u32 = 32;

impl ReplaySession<'_> {
    /// Takes bytes, message by message, until the session ends.
    pub(super) fn take(&mut self, mut bytes: &[u8]) -> Result<(), RereadError> {
        if self.phase == SessionPhase::HangingUp && !bytes.is_empty() {
            self.phase = SessionPhase::Ending;
        }
        let mut splitter = std::mem::replace(&mut self.splitter, MessageSplitter::of_client());
        while self.phase == SessionPhase::Serving {
            match splitter.cut(&mut bytes) {
                Ok(None) => break,
                Ok(Some(MessageSlice::Whole(message))) => self.take_message(message)?,
                Ok(Some(MessageSlice::Part(part, left))) => self.take_part(part, left)?,
                Err(why) => self.differ(ReportedMessage::Words(why.to_string())),
            }
        }
        self.splitter = splitter;
        Ok(())
    }

    fn take_message(&mut self, message: &[u8]) -> Result<(), RereadError> {
        if let Some(refuse_until) = self.refuse_until {
            return self.take_refused(refuse_until, message);
        }
        match message[0] {
            // Answers don't wait for a Flush, and no password is asked for any more.
            b'H' | b'p' => {
                self.holds = false;
                Ok(())
            }
            b'X' => self.take_terminate(message),
            b'd' if self.is_both && is_state_of_standby(&message[HEAD..]) => Ok(()),
            b'd' => self.take_bytes(message, 0, message.len()),
            _ => match self.end_comparison(message)? {
                true => self.take_by_fingerprint(message),
                false => Ok(()),
            },
        }
    }

    /// Takes a message that is compared by its fingerprint.
    fn take_by_fingerprint(&mut self, message: &[u8]) -> Result<(), RereadError> {
        self.ends_run = !matches!(message[0], b'P' | b'B' | b'D' | b'E' | b'C');
        let known = self.known_fingerprint(message)?;
        let fingerprint = match known {
            Some(fingerprint) => fingerprint,
            None => self.fingerprint_of(message)?,
        };
        // The Sync may be that of what was said before.
        let is_end = self.is_end_of_ignored(message)
            && !self.shared.pool().goes_on_with(self.slot, fingerprint);
        let step = match is_end {
            true => RequestMatch::Differs(None),
            false => self.shared.pool().step(self.slot, fingerprint)?,
        };
        match (known, step) {
            (None, _) => self.answer(step, fingerprint, message),
            (Some(_), RequestMatch::Fits(fit)) if self.next == Some(fit.request) => {
                self.fit(fit);
                Ok(())
            }
            (Some(_), _) => {
                self.fingerprint_of(message)?;
                self.answer(step, fingerprint, message)
            }
        }
    }

    /// Answers a message with a fingerprint, which was made of it.
    fn answer(
        &mut self,
        step: RequestMatch,
        fingerprint: u32,
        message: &[u8],
    ) -> Result<(), RereadError> {
        match step {
            RequestMatch::Fits(fit) => {
                self.follow(fit.request, message)?;
                self.fingerprinter.settle(fingerprint);
                self.fit(fit);
            }
            RequestMatch::Prepares(request) => {
                let rival = self.shared.pool().rival_of_preparing(request);
                if !self.passes(request, rival) {
                    return Ok(());
                }
                self.out.add(&self.shared.recording, request, self.heard_at);
                self.fingerprinter.settle(fingerprint);
                self.is_ignoring = true;
                self.holds = false;
            }
            RequestMatch::Differs(_)
                if self.is_end_of_ignored(message) || self.fingerprinter.ignored().is_some() =>
            {
                self.ignore(fingerprint)
            }
            RequestMatch::Differs(_) => self.take_other(message)?,
        }
        Ok(())
    }

    fn is_end_of_ignored(&self, message: &[u8]) -> bool {
        message[0] == b'S' && self.is_ignoring
    }

    /// The fingerprint of the message that was recorded next, where this is the very one: all names stand for the same then.
    fn known_fingerprint(&mut self, message: &[u8]) -> Result<Option<u32>, RereadError> {
        let recording = &self.shared.recording;
        let next = self.next.filter(|it| *it < recording.requests.len());
        match next.map(|it| (it, recording.requests.compare_by(it))) {
            Some((next, CompareBy::Fingerprint(fingerprint))) => {
                let is_recorded = recording.is_recorded(next, message, &mut self.out.window)?;
                Ok(is_recorded.then_some(fingerprint))
            }
            _ => Ok(None),
        }
    }

    /// The fingerprint of a message that isn't the one which was recorded next.
    pub(super) fn fingerprint_of(&mut self, message: &[u8]) -> Result<u32, RereadError> {
        let shared = self.shared;
        if let Some(next) = self.next.take() {
            self.fingerprinter = shared.recording.fingerprinter_at(next, &shared.rules)?;
        }
        Ok(shared
            .recording
            .fingerprints
            .find(self.fingerprinter.message(Some(message[0]), &message[HEAD..])))
    }

    /// Follows another connection, of which the client has said a message early on: where it is the very one, and names stand
    /// for the same there.
    fn follow(&mut self, request: usize, message: &[u8]) -> Result<(), RereadError> {
        let (recording, rules) = (&self.shared.recording, &self.shared.rules);
        let follows = recording.requests.number(request) <= FOLLOWED_MOST
            && recording.is_recorded(request, message, &mut self.out.window)?
            && recording.fingerprinter_at(request, rules)?.has_names_of(&self.fingerprinter);
        self.next = Some(request).filter(|_| follows);
        Ok(())
    }

    /// Answers what fits.
    pub(super) fn fit(&mut self, fit: MatchedRequest) {
        if !self.passes(fit.request, fit.rival) {
            return;
        }
        self.next = self.next.filter(|it| *it == fit.request).map(|it| it + 1);
        let request = &self.shared.recording.requests.list[fit.request];
        self.out.add(&self.shared.recording, fit.request, self.heard_at);
        self.is_owing = request.goes_on && !fit.is_turn_over;
        self.holds = request.goes_on && !self.ends_run;
        self.is_both |= request.opens_both;
        self.is_in_transaction = !fit.is_idle;
        self.is_ignoring = false;
        if fit.is_idle {
            self.is_both = false;
            self.fingerprinter.end_transaction();
        }
        if request.is_cause {
            self.shared.stirred.notify_waiters();
        }
        if fit.hangs_up {
            self.phase = SessionPhase::HangingUp;
        }
        if fit.is_cut {
            self.differ_at_cut();
        }
    }

    /// Answers what the rules let a client say though it isn't recorded.
    fn ignore(&mut self, fingerprint: u32) {
        let ready = Message::ReadyForQuery(match self.is_in_transaction {
            true => TransactionStatus::InTransaction,
            false => TransactionStatus::Idle,
        });
        let messages = match self.fingerprinter.ignored() {
            None => vec![ready],
            Some(IgnoredRequest::Query(tag)) => vec![Message::CommandComplete(tag.into()), ready],
            Some(IgnoredRequest::Execute(tag)) => vec![Message::CommandComplete(tag.into())],
            Some(IgnoredRequest::Parse) => vec![Message::ParseComplete],
            Some(IgnoredRequest::Bind) => vec![Message::BindComplete],
            Some(IgnoredRequest::Close) => vec![Message::CloseComplete],
            Some(IgnoredRequest::Describe { is_statement: true }) => {
                vec![Message::ParameterDescription(List::default()), Message::NoData]
            }
            Some(IgnoredRequest::Describe { is_statement: false }) => vec![Message::NoData],
        };
        let mut answer = Vec::new();
        let written = messages.iter().try_for_each(|it| it.write(&mut answer));
        self.is_ignoring =
            !matches!(self.fingerprinter.ignored(), None | Some(IgnoredRequest::Query(_)));
        self.fingerprinter.settle(fingerprint);
        if written.is_ok() {
            self.out.add_made(answer);
            self.holds &= !self.ends_run;
        }
    }

    /// Takes a part of a message that is too long to be held.
    fn take_part(&mut self, part: &[u8], left: usize) -> Result<(), RereadError> {
        let begun = self.long;
        self.long = if left > 0 { begun + part.len() } else { 0 };
        self.take_bytes(part, begun, begun + part.len() + left)
    }

    /// Compares bytes from a place on in a message of a length with the recorded ones.
    fn take_bytes(&mut self, bytes: &[u8], from: usize, length: usize) -> Result<(), RereadError> {
        let shared = self.shared;
        if self.comparison.is_none() {
            let Some(request) = shared.pool().begin_bytes(self.slot) else {
                self.differ(ReportedMessage::bytes(bytes, length));
                return Ok(());
            };
            self.comparison = ByteComparison::of(&shared.recording, request)
                .map(|comparison| ByteComparison { is_data: bytes[0] == b'd', ..comparison });
        }
        let Some(comparison) = self.comparison.as_mut() else {
            return Ok(());
        };
        if from == 0 {
            comparison.begins = comparison.reader.place();
        }
        let passed = comparison.passed();
        if let Some(at) = compare(comparison, &shared.recording, bytes)? {
            let other = shared.pool().choose_bytes(self.slot, passed, bytes)?;
            if let Some(mut other) =
                other.and_then(|request| ByteComparison::of(&shared.recording, request))
            {
                other.skip(&shared.recording, passed)?;
                other.begins = other.reader.place();
                self.comparison = Some(other);
                return self.take_bytes(bytes, from, length);
            }
            return self.differ_in_bytes(bytes, from, at, length);
        }
        if comparison.left == 0
            && (!comparison.is_data || !shared.recording.answer_of(comparison.request).is_empty())
        {
            self.finish_comparison();
        }
        Ok(())
    }

    fn differ_in_bytes(
        &mut self,
        bytes: &[u8],
        from: usize,
        at: usize,
        length: usize,
    ) -> Result<(), RereadError> {
        let begins = self.comparison.as_ref().map(|it| it.begins).unwrap_or_default();
        let recorded = ReportedMessage::read(self.shared.recording.message_at(begins, HEAD)?);
        let received =
            if from == 0 { ReportedMessage::bytes(bytes, length) } else { recorded.clone() };
        let name = if bytes[0] == b'd' || from > 0 { "the data" } else { "the body" };
        let part = (from + at >= HEAD).then(|| Difference::at(name, from + at));
        self.differ_from(&recorded, &received, part);
        Ok(())
    }

    fn finish_comparison(&mut self) {
        self.comparison = None;
        let fit = self.shared.pool().end_bytes(self.slot);
        self.fit(fit);
    }

    /// Ends data before a message. False where they aren't over, and the session is at its end.
    fn end_comparison(&mut self, message: &[u8]) -> Result<bool, RereadError> {
        let Some(comparison) = &self.comparison else {
            return Ok(true);
        };
        let is_over = comparison.left == 0
            || self.shared.pool().choose_bytes(self.slot, comparison.passed(), &[])?.is_some();
        match is_over {
            true => self.finish_comparison(),
            false => self.differ(ReportedMessage::message(message)),
        }
        Ok(is_over && self.phase == SessionPhase::Serving)
    }

    fn take_terminate(&mut self, message: &[u8]) -> Result<(), RereadError> {
        if !self.end_comparison(message)? {
            return Ok(());
        }
        let expected = self.shared.pool().expected(self.slot);
        match expected.request.filter(|_| expected.is_sure) {
            Some(_) => {
                self.is_leaving = true;
                self.differ(ReportedMessage::message(message));
            }
            None => self.phase = SessionPhase::Ending,
        }
        Ok(())
    }

    /// Takes the end of what the client sends.
    pub(super) fn end_of_client(&mut self) -> Result<(), RereadError> {
        if self.comparison.as_ref().is_some_and(|it| it.left == 0) {
            self.finish_comparison();
        }
        if self.phase != SessionPhase::Serving || self.refuse_until.is_some() {
            self.phase = SessionPhase::Ending;
            return Ok(());
        }
        self.is_leaving = true;
        let expected = self.shared.pool().expected(self.slot);
        let is_owing = expected.request.is_some() && expected.is_sure;
        if is_owing || expected.ending == ConnectionEnding::Terminate || self.splitter.is_within() {
            self.differ(ReportedMessage::Words("the connection ended".to_owned()));
        }
        self.phase = SessionPhase::Ending;
        Ok(())
    }
}

impl ByteComparison {
    /// The comparison of bytes that begins with a message, where it is compared so.
    fn of(recording: &Recording, request: usize) -> Option<ByteComparison> {
        let CompareBy::Bytes(len) = recording.requests.compare_by(request) else {
            return None;
        };
        let reader = recording.reader(request);
        Some(ByteComparison {
            request,
            begins: reader.place(),
            reader,
            len,
            left: len,
            is_data: true,
        })
    }

    /// How many of the bytes came.
    fn passed(&self) -> u64 {
        self.len - self.left
    }

    /// Passes over bytes that came.
    fn skip(&mut self, recording: &Recording, count: u64) -> Result<(), RereadError> {
        let mut left = count;
        while left > 0 {
            let next = (self.reader.next(recording)?.len() as u64).min(left);
            self.reader.pass(next as usize);
            left -= next.max(1);
        }
        self.left -= count;
        Ok(())
    }
}

/// Compares bytes with those that were recorded. Answers where they differ first.
fn compare(
    comparison: &mut ByteComparison,
    recording: &Recording,
    mut bytes: &[u8],
) -> Result<Option<usize>, RereadError> {
    let mut at = 0;
    while !bytes.is_empty() {
        let next = comparison.reader.next(recording)?;
        let count =
            next.len().min(bytes.len()).min(usize::try_from(comparison.left).unwrap_or(usize::MAX));
        if count == 0 || next[..count] != bytes[..count] {
            let same =
                next.iter().zip(bytes).take(count).take_while(|(one, other)| one == other).count();
            return Ok(Some(at + same));
        }
        comparison.reader.pass(count);
        comparison.left -= count as u64;
        bytes = &bytes[count..];
        at += count;
    }
    Ok(None)
}
