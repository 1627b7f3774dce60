//! What is masked in a message.

use super::mask::Mask;
use super::masked_ranges::MaskedRanges;
use super::rules::RedactionRules;
use super::session::{format_of, ColumnDescription, SessionState};
use super::sql;
use pgmsg::backend::{self, Authentication};
use pgmsg::frontend::{self, Bind, Password};
use pgmsg::Value;

/// Marks what is secret in any text: what patterns match, verifiers of passwords, and what is known as a secret.
fn search_all(text: &[u8], rules: &mut RedactionRules, ranges: &mut MaskedRanges<'_>) {
    rules.texts(text, ranges);
    sql::secrets(text, ranges);
    ranges.put_known(text);
}

/// Marks what is secret in a text that is no SQL, but may quote some.
pub fn search(text: &[u8], rules: &mut RedactionRules, ranges: &mut MaskedRanges<'_>) {
    search_all(text, rules, ranges);
    sql::quoted_passwords(text, ranges);
}

/// Marks what is secret in SQL.
fn search_sql(sql: &[u8], rules: &mut RedactionRules, ranges: &mut MaskedRanges<'_>) {
    search_all(sql, rules, ranges);
    sql::passwords(sql, ranges);
    if rules.statement(sql) {
        sql::literals(sql, ranges);
    }
}

/// Marks what is secret in the name of a statement or a portal.
fn search_name(
    name: &[u8],
    session: &mut SessionState,
    rules: &mut RedactionRules,
    ranges: &mut MaskedRanges<'_>,
) {
    let mut parts = ranges.of_part(name);
    search(name, rules, &mut parts);
    if !parts.is_empty() {
        let substitute = session.names.substitute(name, parts);
        ranges.put(name, Mask::Bytes(substitute));
    }
}

fn search_values(values: &[Value<'_>], rules: &mut RedactionRules, ranges: &mut MaskedRanges<'_>) {
    for value in values.iter().filter_map(|it| it.bytes()) {
        ranges.enter(value);
        search(value, rules, ranges);
    }
}

/// Marks what is secret in a client's message.
pub fn client(
    message: &frontend::Message<'_>,
    session: &mut SessionState,
    rules: &mut RedactionRules,
    ranges: &mut MaskedRanges<'_>,
) {
    use frontend::Message as M;
    match message {
        M::Startup(startup) => {
            let texts = startup.settings.iter().flat_map(|it| [it.name, it.value]);
            texts.for_each(|it| search(&it, rules, ranges));
        }
        M::CancelRequest(cancel) => ranges.add(cancel.secret_key.0, Mask::Zeros),
        M::Password(answer) => password(*answer, ranges),
        M::Query(query) => search_sql(query, rules, ranges),
        M::Parse(parse) => {
            search_name(&parse.statement, session, rules, ranges);
            search_sql(&parse.query, rules, ranges);
        }
        M::Bind(it) => {
            search_name(&it.portal, session, rules, ranges);
            search_name(&it.statement, session, rules, ranges);
            bind(it, session, rules, ranges);
        }
        M::Describe(target) | M::Close(target) => {
            search_name(&target.name(), session, rules, ranges)
        }
        M::Execute(execute) => search_name(&execute.portal, session, rules, ranges),
        M::FunctionCall(call) => search_values(&call.arguments, rules, ranges),
        M::CopyData(text) | M::CopyFail(text) => search_data(text, rules, ranges),
        _ => {}
    }
}

/// Marks what is secret in data of COPY, or of replication.
fn search_data(data: &[u8], rules: &mut RedactionRules, ranges: &mut MaskedRanges<'_>) {
    ranges.tighten(data.contains(&0));
    search(data, rules, ranges);
}

/// Marks an answer to a request for authentication: all but the name of a mechanism.
fn password(answer: Password<'_>, ranges: &mut MaskedRanges<'_>) {
    match (answer.sasl_initial(), answer.password()) {
        (Ok(initial), _) => {
            let response = initial.response.unwrap_or_default().0;
            ranges.enter(response);
            ranges.put(response, Mask::Whole);
        }
        (_, Ok(password)) => ranges.add(password, Mask::Whole),
        _ => ranges.put(answer.0, Mask::Whole),
    }
}

fn bind(
    bind: &Bind<'_>,
    session: &SessionState,
    rules: &mut RedactionRules,
    ranges: &mut MaskedRanges<'_>,
) {
    let statements = session.meant(&bind.statement);
    let is_untold = statements.is_empty() && rules.have_parameters();
    let is_all = statements.iter().any(|it| rules.statement(&it.sql));
    for (at, value) in bind.values.iter().enumerate() {
        let value = match value.bytes() {
            Some(value) => value,
            None => continue,
        };
        ranges.enter(value);
        ranges.untold += u64::from(is_untold);
        let named = statements.iter().filter(|it| rules.parameter(&it.sql, at + 1) || is_all);
        let format = format_of(&bind.formats, at);
        match named.map(|it| it.type_of(at)).max() {
            Some(type_id) => hide(value, Mask::Value { type_id, format }, ranges),
            None => search(value, rules, ranges),
        }
    }
}

/// Marks a value as a whole, and the passwords in it.
fn hide(value: &[u8], mask: Mask, ranges: &mut MaskedRanges<'_>) {
    ranges.add(value, mask);
    ranges.put_known(value);
}

/// Marks what is secret in a server's message.
pub fn server(
    message: &backend::Message<'_>,
    session: &SessionState,
    rules: &mut RedactionRules,
    ranges: &mut MaskedRanges<'_>,
) {
    use backend::Message as M;
    match message {
        M::BackendKeyData(key) => ranges.add(key.secret_key.0, Mask::Zeros),
        M::Authentication(
            Authentication::GssContinue(data)
            | Authentication::SaslContinue(data)
            | Authentication::SaslFinal(data)
            | Authentication::Other(_, data),
        ) => {
            ranges.put(data.0, Mask::Whole);
        }
        M::RowDescription(columns) => columns.iter().for_each(|it| search(&it.name, rules, ranges)),
        M::DataRow(values) => row(values, session, rules, ranges),
        M::CommandComplete(tag) => search(tag, rules, ranges),
        M::ErrorResponse(fields) | M::NoticeResponse(fields) => {
            fields.iter().for_each(|it| search(&it.value, rules, ranges))
        }
        M::NotificationResponse(it) => {
            [it.channel, it.payload].iter().for_each(|it| search(it, rules, ranges))
        }
        M::ParameterStatus(it) => {
            [it.name, it.value].iter().for_each(|it| search(it, rules, ranges))
        }
        M::NegotiateProtocolVersion(it) => {
            it.options.iter().for_each(|it| search(it, rules, ranges))
        }
        M::FunctionCallResponse(it) => search_values(&[it.0], rules, ranges),
        M::CopyData(text) => search_data(text, rules, ranges),
        M::Other(it) => search_data(&it.body, rules, ranges),
        _ => {}
    }
}

fn row(
    values: &[Value<'_>],
    session: &SessionState,
    rules: &mut RedactionRules,
    ranges: &mut MaskedRanges<'_>,
) {
    if !rules.have_columns() {
        return search_values(values, rules, ranges);
    }
    let columns = session.columns();
    let are_told = columns.len() == values.len();
    for (at, value) in values.iter().enumerate() {
        let value = match value.bytes() {
            Some(value) => value,
            None => continue,
        };
        ranges.enter(value);
        ranges.untold += u64::from(!are_told);
        match columns.get(at).filter(|it| are_told && rules.column(&it.name)) {
            Some(&ColumnDescription { type_id, format, .. }) => {
                hide(value, Mask::Value { type_id, format }, ranges)
            }
            None => search(value, rules, ranges),
        }
    }
}
