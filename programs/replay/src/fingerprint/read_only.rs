//! What SQL says of a transaction that only reads: that it does, which snapshot it imports, and what its statements do to the
//! session, so that a later one may depend on them.

use super::names::NameAction;
use super::sql::{ends_of_statements, folded, name_of, naming, pattern, SPACE};

/// What a statement does to its session.
#[derive(Clone, Debug, PartialEq, Eq)]
pub enum StatementEffect {
    /// It reads or locks tables, and leaves nothing that a later answer depends on.
    Reads,
    MakesCursor(Vec<u8>),
    TakesCursor(Vec<u8>),
    MakesStatement(Vec<u8>),
    TakesStatement(Vec<u8>),
    /// It makes a savepoint or takes one.
    Savepoint,
    /// It may leave something: a setting, a lock of the program's own, rows of a temporary table.
    Leaves,
}

/// A statement that only reads or locks the tables that it names, or an empty one.
const PLAIN: &str =
    r"(?xi-u) ^(?:SP)* (?: $ | LOCK\b | COPY (?:SP)+ [^\s(/-] (?s:.*) \bTO (?:SP)+ STDOUT\b )";

/// A query, whose functions or parts may do more than read.
const QUERY: &str = r"(?xi-u) ^(?:SP|\()* (?:
    SELECT\b | TABLE\b | VALUES\b | WITH\b | SHOW\b | EXPLAIN\b
    | COPY (?:SP)* \( (?s:.*) \bTO (?:SP)+ STDOUT\b )";

/// What a query does that leaves something: it writes to a temporary table, or calls one of these functions.
const LEAVING: &str = r#"(?xi-u) \b (?:
    (?: INSERT | UPDATE | DELETE | MERGE ) \b
    | (?: set_config | setseed | lo_\w+ | loread | lowrite | pg_(?:try_)?advisory\w* ) "? (?:SP)* \( )"#;

/// A statement that begins a transaction or says of what kind it is.
const BEGINNING: &str = r"(?i-u)^(?:SP)*(?:BEGIN|START|SET(?:SP)+TRANSACTION)\b";

const IMPORT: &str =
    r"(?i-u)^(?:SP)*SET(?:SP)+TRANSACTION(?:SP)+SNAPSHOT(?:SP)+'([^']*)'(?:SP)*;?(?:SP)*$";

/// Whether a text that begins a transaction, or says of what kind it is, has it only read, where it says so at all.
pub fn is_read_only(text: &[u8]) -> Option<bool> {
    if !may_begin(text) || !pattern!(&BEGINNING.replace("SP", SPACE)).is_match(text) {
        return None;
    }
    let last = pattern!(r"(?i-u)\bREAD\s+(ONLY|WRITE)\b").captures_iter(text).last()?;
    Some(last[1].eq_ignore_ascii_case(b"only"))
}

/// Whether a text has the first letters of such a statement, or a comment before it. All texts of a recording are asked for
/// that.
fn may_begin(text: &[u8]) -> bool {
    let spaces = text.iter().take_while(|it| it.is_ascii_whitespace()).count();
    let first = text[spaces..].get(..3).unwrap_or_default();
    first.starts_with(b"/*")
        || first.starts_with(b"--")
        || [b"BEG", b"STA", b"SET"].iter().any(|it| first.eq_ignore_ascii_case(*it))
}

/// The name of the snapshot that a text imports, where it does nothing else.
pub fn imported(text: &[u8]) -> Option<&[u8]> {
    let found = pattern!(&IMPORT.replace("SP", SPACE)).captures(text)?;
    found.get(1).map(|it| it.as_bytes())
}

/// What the statements of a text do, in their order.
pub fn statement_effects(text: &[u8]) -> Vec<StatementEffect> {
    let ends = ends_of_statements(text);
    let begins = [0].into_iter().chain(ends.iter().copied());
    begins
        .zip(ends.iter().copied().chain([text.len()]))
        .map(|(from, to)| deed(&text[from..to]))
        .collect()
}

fn deed(statement: &[u8]) -> StatementEffect {
    let body = statement.strip_suffix(b";").unwrap_or(statement);
    if pattern!(&PLAIN.replace("SP", SPACE)).is_match(body) {
        return StatementEffect::Reads;
    }
    if pattern!(&LEAVING.replace("SP", SPACE)).is_match(body) {
        return StatementEffect::Leaves;
    }
    let Some((action, place)) = naming().captures(body).and_then(|it| name_of(&it)) else {
        return match pattern!(&QUERY.replace("SP", SPACE)).is_match(body) {
            true => StatementEffect::Reads,
            false => StatementEffect::Leaves,
        };
    };
    let name = folded(&body[place]).into_owned();
    match action {
        NameAction::Savepoint | NameAction::Release | NameAction::Back => {
            StatementEffect::Savepoint
        }
        NameAction::Declare => StatementEffect::MakesCursor(name),
        NameAction::Fetch | NameAction::Close => StatementEffect::TakesCursor(name),
        NameAction::Prepare => StatementEffect::MakesStatement(name),
        NameAction::Execute => StatementEffect::TakesStatement(name),
        NameAction::Deallocate => StatementEffect::Reads,
    }
}

#[cfg(test)]
mod tests {
    use super::*;

    #[test]
    fn a_transaction_that_only_reads_says_so_last() {
        for (text, is) in [
            ("BEGIN READ ONLY", Some(true)),
            ("start transaction isolation level repeatable read, read only;", Some(true)),
            ("SET TRANSACTION ISOLATION LEVEL REPEATABLE READ READ ONLY", Some(true)),
            ("/* x */ SET TRANSACTION READ WRITE", Some(false)),
            ("BEGIN READ ONLY; SET TRANSACTION READ WRITE", Some(false)),
            ("\n begin -- all\n read only", Some(true)),
            ("BEGIN", None),
            ("", None),
            ("SELECT 'READ ONLY'", None),
            ("SET default_transaction_read_only = 'READ ONLY'", None),
        ] {
            assert_eq!(is_read_only(text.as_bytes()), is, "{text}");
        }
    }

    #[test]
    fn an_import_stands_alone() {
        let import = "set transaction snapshot '00000003-0000001B-1' ;";
        assert_eq!(imported(import.as_bytes()), Some(&b"00000003-0000001B-1"[..]));
        for text in ["SET TRANSACTION SNAPSHOT '1'; SELECT 1", "SELECT 'SET TRANSACTION SNAPSHOT'"]
        {
            assert_eq!(imported(text.as_bytes()), None, "{text}");
        }
    }

    #[test]
    fn what_only_reads_leaves_nothing() {
        for text in [
            "",
            "SELECT 1",
            "(TABLE a) UNION (SELECT 2)",
            "LOCK TABLE public.update IN ACCESS SHARE MODE NOWAIT",
            "COPY public.delete (id, update) TO stdout;",
            "COPY (SELECT 1) TO STDOUT (FORMAT binary)",
            "-- all\nEXPLAIN SELECT 1",
            "SELECT oid FROM pg_proc WHERE proname IN ('lo_open', 'set_config')",
        ] {
            assert!(
                statement_effects(text.as_bytes()).iter().all(|it| *it == StatementEffect::Reads),
                "{text}"
            );
        }
        for text in [
            "SET search_path = a",
            "SELECT set_config('search_path', '', false)",
            "SELECT pg_try_advisory_lock(1)",
            "SELECT pg_catalog.\"lo_open\" (1, 2)",
            "COPY a FROM STDIN",
            "COPY (INSERT INTO a VALUES (1) RETURNING 1) TO STDOUT",
            "WITH a AS (DELETE FROM b RETURNING 1) TABLE a",
            "DO $$ BEGIN; END $$",
            "SELECTED",
        ] {
            assert_eq!(statement_effects(text.as_bytes()), [StatementEffect::Leaves], "{text}");
        }
    }

    #[test]
    fn names_are_made_and_taken() {
        let text = b"DECLARE \"A\" CURSOR FOR SELECT 1; FETCH 5 FROM \"A\"; PREPARE b AS SELECT 1; EXECUTE B;\
            SAVEPOINT c; SET a = 1";
        let [cursor, statement] = [b"A".to_vec(), b"b".to_vec()];
        let all = [
            StatementEffect::MakesCursor(cursor.clone()),
            StatementEffect::TakesCursor(cursor),
            StatementEffect::MakesStatement(statement.clone()),
            StatementEffect::TakesStatement(statement),
            StatementEffect::Savepoint,
            StatementEffect::Leaves,
        ];
        assert_eq!(statement_effects(text), all);
    }
}
