//! Lines of the trace: of each kind of message, whole and broken.
#![forbid(unsafe_code)]

use lines::trace::{first_message, message, Style};
use recording::Side;
use Side::{Client, Server};

/// A message, and its line as libpq prints it; at last the line that shows more, where it is another.
struct Sample(Side, Option<u8>, &'static [u8], &'static [u8], Option<&'static [u8]>);

/// Messages without a fault.
#[rustfmt::skip]
const WHOLE: &[Sample] = &[
    Sample(Client, None, b"\0\x03\0\0user\0a b\0database\0\"\0\0", b"F\t29\tUnknown message: length is 29", Some(b"F\t29\tStartupMessage\t 3 0 \"user\" \"a b\" \"database\" \"\"\"")),
    Sample(Client, None, b"\0\x03\0\x02\0", b"F\t9\tUnknown message: length is 9", Some(b"F\t9\tStartupMessage\t 3 2")),
    Sample(Client, None, b"\x04\xd2\x16/", b"F\t8\tUnknown message: length is 8", Some(b"F\t8\tSSLRequest\t 1234 5679")),
    Sample(Client, None, b"\x04\xd2\x160", b"F\t8\tUnknown message: length is 8", Some(b"F\t8\tGSSENCRequest\t 1234 5680")),
    Sample(Client, None, b"\x04\xd2\x16.\0\0\0\x07\xff\xff\xff\xff", b"F\t16\tUnknown message: length is 16", Some(b"F\t16\tCancelRequest\t 1234 5678 7 -1")),
    Sample(Client, None, b"\x04\xd2\x16.\0\0\0\x07secret", b"F\t18\tUnknown message: length is 18", Some(b"F\t18\tCancelRequest\t 1234 5678 7 'secret'")),
    Sample(Client, Some(b'B'), b"p\0s\0\0\x02\0\0\0\x01\0\x03\xff\xff\xff\xff\0\0\0\0\0\0\0\x02a\t\0\x01\0\x01", b"F\t34\tBind\t \"p\" \"s\" 2 0 1 3 -1 0 '' 2 'a\\x09' 1 1", None),
    Sample(Client, Some(b'C'), b"Sname\0", b"F\t10\tClose\t S \"name\"", None),
    Sample(Client, Some(b'D'), b"P\0", b"F\t6\tDescribe\t P \"\"", None),
    Sample(Client, Some(b'E'), b"\0\xff\xff\xff\xff", b"F\t9\tExecute\t \"\" -1", None),
    Sample(Client, Some(b'F'), b"\0\0\x07\xd0\0\x01\0\x01\0\x02\0\0\0\x01\x7f\xff\xff\xff\xff\0\x01", b"F\t25\tFunctionCall\t 2000 1 1 2 1 '\\x7f' -1 1", None),
    Sample(Client, Some(b'H'), b"", b"F\t4\tFlush", None),
    Sample(Client, Some(b'P'), b"s\0SELECT $1\0\0\x02\0\0\0\x17\xff\xff\xff\xff", b"F\t26\tParse\t \"s\" \"SELECT $1\" 2 23 -1", None),
    Sample(Client, Some(b'Q'), b"SELECT '\n\xe9'\0", b"F\t16\tQuery\t \"SELECT '\n\xe9'\"", None),
    Sample(Client, Some(b'Q'), b"\t\x01\r\x1b[2J\x7f\xc2\x9b\xc2\xa0\xc2\0", b"F\t18\tQuery\t \"\t\\x01\\x0d\\x1b[2J\\x7f\\xc2\\x9b\xc2\xa0\xc2\"", None),
    Sample(Client, Some(b'S'), b"", b"F\t4\tSync", None),
    Sample(Client, Some(b'X'), b"", b"F\t4\tTerminate", None),
    Sample(Client, Some(b'c'), b"", b"F\t4\tCopyDone", None),
    Sample(Client, Some(b'd'), b"1\ta\n", b"F\t8\t\nmismatched message length: consumed 4, expected 8", Some(b"F\t8\tCopyData\t '1\\x09a\\x0a'")),
    Sample(Client, Some(b'd'), b"", b"F\t4\t", Some(b"F\t4\tCopyData\t ''")),
    Sample(Client, Some(b'f'), b"no\0", b"F\t7\tCopyFail\t \"no\"", None),
    Sample(Client, Some(b'p'), b"secret\0", b"F\t11\tUnknown message: 70\nmismatched message length: consumed 4, expected 11", Some(b"F\t11\tPasswordMessage")),
    Sample(Client, Some(b'Z'), b"I", b"F\t5\tUnknown message: 5a\nmismatched message length: consumed 4, expected 5", None),
    Sample(Client, Some(b'S'), b"abc", b"F\t7\tSync\nmismatched message length: consumed 4, expected 7", None),
    Sample(Client, Some(b'Q'), b"a\0b", b"F\t7\tQuery\t \"a\"\nmismatched message length: consumed 6, expected 7", None),
    Sample(Server, Some(b'1'), b"", b"B\t4\tParseComplete", None),
    Sample(Server, Some(b'2'), b"", b"B\t4\tBindComplete", None),
    Sample(Server, Some(b'3'), b"", b"B\t4\tCloseComplete", None),
    Sample(Server, Some(b'A'), b"\0\0\x04\xd2ch\0\xe9\0", b"B\t13\tNotificationResponse\t 1234 \"ch\" \"\xe9\"", None),
    Sample(Server, Some(b'C'), b"SELECT 1\0", b"B\t13\tCommandComplete\t \"SELECT 1\"", None),
    Sample(Server, Some(b'D'), b"\0\x03\0\0\0\x02'\\\xff\xff\xff\xff\0\0\0\0", b"B\t20\tDataRow\t 3 2 ''\\' -1 0 ''", None),
    Sample(Server, Some(b'E'), b"SERROR\0C42P01\0\0", b"B\t19\tErrorResponse\t S \"ERROR\" C \"42P01\" \\x00", None),
    Sample(Server, Some(b'G'), b"\0\0\x02\0\0\xff\xff", b"B\t11\tCopyInResponse\t \\x00 2 0 65535", None),
    Sample(Server, Some(b'H'), b"\x01\0\x01\0\x01", b"B\t9\tCopyOutResponse\t \\x01 1 1", None),
    Sample(Server, Some(b'I'), b"", b"B\t4\tEmptyQueryResponse", None),
    Sample(Server, Some(b'K'), b"\0\0\x04\xd2\xff\xff\xff\xfe", b"B\t12\tBackendKeyData\t 1234 -2", None),
    Sample(Server, Some(b'N'), b"Mno\0\0", b"B\t9\tNoticeResponse\t M \"no\" \\x00", None),
    Sample(Server, Some(b'R'), b"\0\0\0\x05salt", b"B\t12\tAuthentication\t 5\nmismatched message length: consumed 8, expected 12", Some(b"B\t12\tAuthentication\t 5")),
    Sample(Server, Some(b'R'), b"\0\0\0\0", b"B\t8\tAuthentication\t 0", None),
    Sample(Server, Some(b'S'), b"TimeZone\0UTC\0", b"B\t17\tParameterStatus\t \"TimeZone\" \"UTC\"", None),
    Sample(Server, Some(b'T'), b"\0\x01n\"\0\0\0@\x01\xff\xff\0\0\0\x19\xff\xff\xff\xff\xff\xff\0\x01", b"B\t27\tRowDescription\t 1 \"n\"\" 16385 65535 25 65535 -1 1", None),
    Sample(Server, Some(b'V'), b"\0\0\0\x02\0a", b"B\t10\tFunctionCallResponse\t 2 '\\x00a'", None),
    Sample(Server, Some(b'V'), b"\xff\xff\xff\xff", b"B\t8\tFunctionCallResponse\t -1", None),
    Sample(Server, Some(b'W'), b"\0\0\0", b"B\t7\tCopyBothResponse\t \\x00 0", None),
    Sample(Server, Some(b'Z'), b"T", b"B\t5\tReadyForQuery\t T", None),
    Sample(Server, Some(b'c'), b"", b"B\t4\tCopyDone", None),
    Sample(Server, Some(b'd'), b"\x80", b"B\t5\t\nmismatched message length: consumed 4, expected 5", Some(b"B\t5\tCopyData\t '\\x80'")),
    Sample(Server, Some(b'n'), b"", b"B\t4\tNoData", None),
    Sample(Server, Some(b's'), b"", b"B\t4\tPortalSuspended", None),
    Sample(Server, Some(b't'), b"\0\x02\0\0\0\x17\xff\xff\xff\xff", b"B\t14\tParameterDescription\t 2 23 -1", None),
    Sample(Server, Some(b'v'), b"\0\x03\0\0\0\0\0\x01a\0", b"B\t14\tNegotiateProtocolVersion\t 196608 1\nmismatched message length: consumed 12, expected 14", Some(b"B\t14\tNegotiateProtocolVersion\t 196608 1 \"a\"")),
    Sample(Server, Some(b'p'), b"ab", b"B\t6\tUnknown message: 70\nmismatched message length: consumed 4, expected 6", None),
];

/// Messages that break the protocol.
#[rustfmt::skip]
const BROKEN: &[Sample] = &[
    Sample(Client, None, b"\0\x03\0\0user\0", b"F\t13\tUnknown message: length is 13 broken: expected NUL after offset 9", None),
    Sample(Client, Some(b'Q'), b"SELECT 1", b"F\t12\tQuery\t broken: expected NUL after offset 0", None),
    Sample(Client, Some(b'D'), b"X\0", b"F\t6\tDescribe\t X \"\" broken: neither a statement nor a portal: 88", None),
    Sample(Server, Some(b'D'), b"\0\x01\0\0\0\x05ab", b"B\t12\tDataRow\t 1 5 broken: expected 5 bytes at offset 6, got 2", None),
    Sample(Server, Some(b'Z'), b"", b"B\t4\tReadyForQuery\t broken: expected 1 bytes at offset 0, got 0", None),
    Sample(Server, Some(b'Z'), b"\x01", b"B\t5\tReadyForQuery\t \\x01 broken: unknown transaction status: 1", None),
    Sample(Server, Some(b'V'), b"\0\0\0\x05ab", b"B\t10\tFunctionCallResponse\t 5 broken: a part is cut off after offset 4", None),
];

impl Sample {
    /// The line of the message with another body, without its end, and whether it is whole.
    fn line_of(&self, style: Style, body: &[u8]) -> (Vec<u8>, bool) {
        let mut out = Vec::new();
        let is_whole = match self.1 {
            Some(tag) => message(&mut out, style, self.0, tag, body),
            None => first_message(&mut out, style, body),
        };
        assert_eq!(out.pop(), Some(b'\n'));
        (out, is_whole)
    }

    fn has_its_lines(&self, should_be_whole: bool) {
        let lines = [(Style::AsLibpq, self.3), (Style::Whole, self.4.unwrap_or(self.3))];
        for (style, wanted) in lines {
            let (line, is_whole) = self.line_of(style, self.2);
            assert_eq!(line.escape_ascii().to_string(), wanted.escape_ascii().to_string());
            assert_eq!(is_whole, should_be_whole, "{}", line.escape_ascii());
        }
    }

    /// What a body says that is cut off or changed isn't known: it is broken where its line says so, and the library
    /// finds all that is, but in the messages that it doesn't read.
    fn is_judged(&self, body: &[u8]) {
        let (line, is_whole) = self.line_of(Style::Whole, body);
        let line = line.escape_ascii().to_string();
        assert_eq!(is_whole, !line.contains(" broken: "), "{line}");
        let is_read = self.0 == Client || !matches!(self.1, Some(b'V' | b'W' | b'v'));
        assert!(!is_read || !line.contains("a part is cut off"), "{line}");
    }
}

#[test]
fn each_kind_of_message_has_its_lines() {
    for sample in WHOLE {
        sample.has_its_lines(true);
    }
}

#[test]
fn a_broken_message_is_shown_up_to_its_fault() {
    for sample in BROKEN {
        sample.has_its_lines(false);
    }
}

#[test]
fn a_message_that_is_cut_off_or_changed_is_shown_as_broken_where_it_is() {
    for sample in WHOLE {
        for at in 0..sample.2.len() {
            sample.is_judged(&sample.2[..at]);
            let mut changed = sample.2.to_vec();
            changed[at] = changed[at].wrapping_add(0x7f);
            sample.is_judged(&changed);
        }
    }
}
