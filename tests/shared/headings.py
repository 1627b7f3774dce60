"""Which line of the page of formats each message of the documentation's chapter "Frontend/Backend Protocol" has.

A row is a heading of the documentation; the line of the page, or the lines where the two directions differ; and the example
that shows it, a law of crates/pg_format/src/laws/examples.rt with its clause.
"""

import html
import pathlib
import re

import crates

FORMATS = crates.TOP / "crates/pg_format"

# What Debian's package postgresql-doc-15 installs.
INSTALLED = pathlib.Path("/usr/share/doc/postgresql-doc-15/html")

# "Message Formats", "Streaming Replication Protocol" and "Logical Replication Message Formats": the page of the documentation,
# that of formats, and the rows.
PAGES = [
    ("protocol-message-formats.html", "Messages.antt", """
        AuthenticationOk (B)               | authentication             | examples_of_authentication ok
        AuthenticationKerberosV5 (B)       | any_authentication         | examples_of_any_authentication kerberos_v5
        AuthenticationCleartextPassword (B)| authentication             | examples_of_authentication cleartext
        AuthenticationMD5Password (B)      | authentication             | examples_of_authentication md5
        AuthenticationSCMCredential (B)    | any_authentication         | examples_of_any_authentication scm_credential
        AuthenticationGSS (B)              | any_authentication         | examples_of_any_authentication gss
        AuthenticationGSSContinue (B)      | any_authentication         | examples_of_any_authentication gss_continue
        AuthenticationSSPI (B)             | any_authentication         | examples_of_any_authentication sspi
        AuthenticationSASL (B)             | authentication             | examples_of_authentication sasl
        AuthenticationSASLContinue (B)     | authentication             | examples_of_authentication continued
        AuthenticationSASLFinal (B)        | authentication             | examples_of_authentication finished
        BackendKeyData (B)                 | backend_key_data           | examples_from_a_server backend_key_data
        Bind (F)                           | bind                       | examples_from_a_client bind
        BindComplete (B)                   | no_body                    | examples_from_a_server bind_complete
        CancelRequest (F)                  | cancel_request             | examples_without_a_tag cancel_request
        Close (F)                          | targeted                   | examples_from_a_client close_statement
        CloseComplete (B)                  | no_body                    | examples_from_a_server close_complete
        CommandComplete (B)                | command_complete           | examples_from_a_server command_complete
        CopyData (F & B)                   | copy_data                  | examples_from_a_client copy_data
        CopyDone (F & B)                   | empty no_body              | examples_from_a_client copy_done
        CopyFail (F)                       | text                       | examples_from_a_client copy_fail
        CopyInResponse (B)                 | copy_response              | examples_of_columns copied_in
        CopyOutResponse (B)                | copy_response              | examples_of_columns copied_out
        CopyBothResponse (B)               | copy_response              | examples_of_other_messages copied_both
        DataRow (B)                        | data_row                   | examples_of_columns row
        Describe (F)                       | targeted                   | examples_from_a_client describe_statement
        EmptyQueryResponse (B)             | no_body                    | examples_from_a_server empty_query_response
        ErrorResponse (B)                  | notice                     | examples_from_a_server error_response
        Execute (F)                        | execute                    | examples_from_a_client execute
        Flush (F)                          | empty                      | examples_from_a_client flush
        FunctionCall (F)                   | function_call              | examples_from_a_client function_call
        FunctionCallResponse (B)           | function_call_response     | examples_of_other_messages called
        GSSENCRequest (F)                  | gss_enc_request            | examples_without_a_tag gss_enc_request
        GSSResponse (F)                    | gss_response               | examples_from_a_client gss_response
        NegotiateProtocolVersion (B)       | negotiate_protocol_version | examples_of_other_messages negotiated
        NoData (B)                         | no_body                    | examples_from_a_server no_data
        NoticeResponse (B)                 | notice                     | examples_from_a_server notice_response
        NotificationResponse (B)           | notification               | examples_from_a_server notification_response
        ParameterDescription (B)           | parameter_description      | examples_from_a_server parameter_description
        ParameterStatus (B)                | parameter_status           | examples_from_a_server parameter_status
        Parse (F)                          | parse                      | examples_from_a_client parse
        ParseComplete (B)                  | no_body                    | examples_from_a_server parse_complete
        PasswordMessage (F)                | text                       | examples_from_a_client password_message
        PortalSuspended (B)                | no_body                    | examples_from_a_server portal_suspended
        Query (F)                          | text                       | examples_from_a_client query
        ReadyForQuery (B)                  | ready_for_query            | examples_of_statuses idle
        RowDescription (B)                 | row_description            | examples_of_columns of_a_table
        SASLInitialResponse (F)            | sasl_initial_response      | examples_from_a_client sasl_initial_response
        SASLResponse (F)                   | sasl_response              | examples_from_a_client sasl_response
        SSLRequest (F)                     | ssl_request                | examples_without_a_tag ssl_request
        StartupMessage (F)                 | startup                    | examples_without_a_tag startup
        Sync (F)                           | empty                      | examples_from_a_client sync
        Terminate (F)                      | empty                      | examples_from_a_client terminate
    """),
    ("protocol-replication.html", "Replication.antt", """
        XLogData (B)                       | xlog_data                  | examples_of_replication xlog_data
        Primary keepalive message (B)      | primary_keepalive          | examples_of_replication keepalive
        Standby status update (F)          | standby_status_update      | examples_of_replication status_update
        Hot standby feedback message (F)   | hot_standby_feedback       | examples_of_replication feedback
        new archive (B)                    | new_archive                | examples_of_replication new_archive
        manifest (B)                       | manifest                   | examples_of_replication manifest
        archive or manifest data (B)       | backup_data                | examples_of_replication backup_data
        progress report (B)                | progress                   | examples_of_replication progress
    """),
    ("protocol-logicalrep-message-formats.html", "Logical.antt", """
        Begin                              | begin                      | examples_of_logical_replication begin_739
        Message                            | message                    | examples_of_logical_replication message_to_ab
        Commit                             | commit                     | examples_of_logical_replication commit_of_begin
        Origin                             | origin                     | examples_of_logical_replication origin_far
        Relation                           | relation                   | examples_of_logical_replication table_of_a_column
        Type                               | type_name                  | examples_of_logical_replication type_mood
        Insert                             | insert                     | examples_of_logical_replication insert_of_four_values
        Update                             | update                     | examples_of_logical_replication update_of_a_key
        Delete                             | delete                     | examples_of_logical_replication delete_of_a_row
        Truncate                           | truncate                   | examples_of_logical_replication truncate_of_two
        Stream Start                       | stream_start               | examples_of_logical_replication stream_of_739
        Stream Stop                        | stream_stop                | examples_of_logical_replication stream_stop
        Stream Commit                      | stream_commit              | examples_of_logical_replication stream_commit_739
        Stream Abort                       | stream_abort               | examples_of_logical_replication stream_abort_740
        Begin Prepare                      | begin_prepare              | examples_of_logical_replication begin_of_g
        Prepare                            | prepared                   | examples_of_logical_replication prepare_of_g
        Commit Prepared                    | prepared                   | examples_of_logical_replication commit_prepared
        Rollback Prepared                  | rollback_prepared          | examples_of_logical_replication rollback_of_g
        Stream Prepare                     | prepared                   | examples_of_logical_replication stream_prepare
        TupleData                          | tuple                      | examples_of_logical_replication insert_of_four_values
    """),
]

# What is explained on a page: a message, a field of one, or a command.
HEADING = re.compile(r'<dt( id="[^"]*")?>(.*?)</dt>', re.DOTALL)

# Who sends a message.
SIDES = re.compile(r" \((B|F|F & B)\)$")


def rows(text):
    """The headings of a text of rows, their lines and their examples."""
    return [tuple(part.strip() for part in row.split("|")) for row in text.strip().splitlines()]


def amiss():
    """Lines that aren't on their page of formats, and examples that no law has."""
    examples = {(law, clause) for law, clauses in re.findall(r"^pub fn (\w+)\(\)\n((?: +ensures .*\n)+)", read("src/laws/examples.rt"), re.MULTILINE)
                for clause in re.findall(r"ensures (\w+) \{", clauses)}
    for _, page, text in PAGES:
        there = {*re.findall(r"^abbrev pub (\w+) :.* Format ", read(f"specs/{page}"), re.MULTILINE)}
        for heading, lines, example in rows(text):
            yield from (f"{page} has no line {line}, which is that of {heading}" for line in lines.split() if line not in there)
            if tuple(example.split()) not in examples:
                yield f"no law has the example {example}, which is that of {heading}"


def read(path):
    return (FORMATS / path).read_text()


def compared():
    """What differs between the headings of the rows and those of the installed pages; or None where none are installed."""
    if not INSTALLED.is_dir():
        return None
    return [f"{page}: {heading} is {where}" for page, _, text in PAGES for heading, where in differences(page, text)]


def differences(page, text):
    listed, found = [heading for heading, *_ in rows(text)], headings(page)
    yield from ((heading, "in no row") for heading in found if heading not in listed)
    yield from ((heading, "no heading there") for heading in listed if heading not in found)


def headings(page):
    """The headings of messages on an installed page: those with a side, and where none has one, those with an id."""
    found = [(named, " ".join(html.unescape(re.sub("<[^>]*>", "", text)).split()))
             for named, text in HEADING.findall((INSTALLED / page).read_text())]
    return [words for _, words in found if SIDES.search(words)] or [words for named, words in found if named]


def summary():
    """How many messages the rows have, and with what they were compared."""
    count = sum(len(rows(text)) for *_, text in PAGES)
    if not INSTALLED.is_dir():
        return f"left out: the headings of {count} messages beside those of the documentation (apt-get install postgresql-doc-15)"
    return f"headings of messages: {count} with their lines and examples, compared with those of postgresql-doc-15"
