//! What was said since a session waited for nothing, by which it is found out what could have come.

use pgmsg::flow::Flow;
use recording::Side;

/// As many bytes of a body as the flow looks at.
const FIRST: usize = 6;

/// The tag and the first bytes of the body of a message.
#[derive(Clone, Copy, Debug, PartialEq, Eq)]
struct Step {
    side: Side,
    tag: Option<u8>,
    first: [u8; FIRST],
    len: usize,
}

/// What was said since the connection was opened, or since nothing was waited for.
#[derive(Debug, Default)]
pub struct Trail {
    is_ready: bool,
    steps: Vec<Step>,
}

/// A message of a side by its tag, the bytes with which its body begins, and its name.
type Candidate = (Option<u8>, &'static [u8], &'static str);

const OF_CLIENT: [Candidate; 18] = [
    (None, &[4, 210, 22, 47], "SSLRequest"),
    (None, &[4, 210, 22, 48], "GSSENCRequest"),
    (None, &[0, 3, 0, 0], "StartupMessage"),
    (None, &[4, 210, 22, 46], "CancelRequest"),
    (Some(b'p'), b"SCRAM-", "PasswordMessage"),
    (Some(b'Q'), b"", "Query"),
    (Some(b'P'), b"", "Parse"),
    (Some(b'B'), b"", "Bind"),
    (Some(b'D'), b"S", "Describe"),
    (Some(b'E'), b"", "Execute"),
    (Some(b'C'), b"S", "Close"),
    (Some(b'F'), b"", "FunctionCall"),
    (Some(b'd'), b"", "CopyData"),
    (Some(b'c'), b"", "CopyDone"),
    (Some(b'f'), b"", "CopyFail"),
    (Some(b'S'), b"", "Sync"),
    (Some(b'H'), b"", "Flush"),
    (Some(b'X'), b"", "Terminate"),
];

/// All but those that may come at any time.
const OF_SERVER: [Candidate; 28] = [
    (Some(b'R'), &[0, 0, 0, 0], "AuthenticationOk"),
    (Some(b'R'), &[0, 0, 0, 2], "AuthenticationKerberosV5"),
    (Some(b'R'), &[0, 0, 0, 3], "AuthenticationCleartextPassword"),
    (Some(b'R'), &[0, 0, 0, 7], "AuthenticationGSS"),
    (Some(b'R'), &[0, 0, 0, 8], "AuthenticationGSSContinue"),
    (Some(b'R'), &[0, 0, 0, 10], "AuthenticationSASL"),
    (Some(b'R'), &[0, 0, 0, 11], "AuthenticationSASLContinue"),
    (Some(b'R'), &[0, 0, 0, 12], "AuthenticationSASLFinal"),
    (Some(b'v'), b"", "NegotiateProtocolVersion"),
    (Some(b'K'), b"", "BackendKeyData"),
    (Some(b'1'), b"", "ParseComplete"),
    (Some(b'2'), b"", "BindComplete"),
    (Some(b'3'), b"", "CloseComplete"),
    (Some(b't'), b"", "ParameterDescription"),
    (Some(b'T'), b"", "RowDescription"),
    (Some(b'n'), b"", "NoData"),
    (Some(b'D'), b"", "DataRow"),
    (Some(b'C'), b"", "CommandComplete"),
    (Some(b'I'), b"", "EmptyQueryResponse"),
    (Some(b's'), b"", "PortalSuspended"),
    (Some(b'G'), b"", "CopyInResponse"),
    (Some(b'H'), b"", "CopyOutResponse"),
    (Some(b'W'), b"", "CopyBothResponse"),
    (Some(b'd'), b"", "CopyData"),
    (Some(b'c'), b"", "CopyDone"),
    (Some(b'V'), b"", "FunctionCallResponse"),
    (Some(b'E'), b"", "ErrorResponse"),
    (Some(b'Z'), b"I", "ReadyForQuery"),
];

/// The steps of authentication whose messages are left out: GSSContinue, SASL, SASLContinue, SASLFinal.
const LEFT_OUT: [u32; 4] = [10, 11, 12, 8];

impl Trail {
    /// Nothing is waited for.
    pub fn restart(&mut self) {
        self.is_ready = true;
        self.steps.clear();
    }

    /// Adds a message. One of a run of data or rows leads nowhere.
    pub fn add(&mut self, side: Side, tag: Option<u8>, body: &[u8]) {
        let len = body.len().min(FIRST);
        let mut first = [0; FIRST];
        first[..len].copy_from_slice(&body[..len]);
        let goes_on = matches!(tag, Some(b'd' | b'D')) && side == Side::Server
            || tag == Some(b'd') && side == Side::Client;
        if goes_on && self.steps.last().is_some_and(|it| (it.side, it.tag) == (side, tag)) {
            return;
        }
        self.steps.push(Step { side, tag, first, len });
    }

    /// The flow where all this was said.
    fn flow(&self) -> Flow {
        let mut flow = match self.is_ready {
            true => Flow::ready(),
            false => Flow::client(),
        };
        for step in &self.steps {
            // Each was taken before.
            let _ = takes(&mut flow, step.side, step.tag, &step.first[..step.len]);
        }
        flow
    }

    /// The names of the messages of a side that could come next.
    pub fn due(&self, side: Side) -> Vec<&'static str> {
        let candidates = match side {
            Side::Client => &OF_CLIENT[..],
            Side::Server => &OF_SERVER[..],
        };
        let due =
            candidates.iter().filter(|(tag, first, _)| takes(&mut self.flow(), side, *tag, first));
        due.map(|(_, _, name)| *name).collect()
    }

    /// The step of authentication that is due of those whose messages are left out.
    pub fn left_out_step(&self) -> u32 {
        let is_due =
            |step: &u32| takes(&mut self.flow(), Side::Server, Some(b'R'), &step.to_be_bytes());
        LEFT_OUT.into_iter().find(is_due).unwrap_or_default()
    }
}

/// Whether a flow takes a message.
fn takes(flow: &mut Flow, side: Side, tag: Option<u8>, first: &[u8]) -> bool {
    match side {
        Side::Client => flow.said(tag, first).is_ok(),
        Side::Server => flow.heard(tag, first).is_ok(),
    }
}
