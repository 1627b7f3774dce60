//! Values of parameters, and those of a function's arguments.

use crate::body::checked;
use crate::buffer::{put_sound, Buffer};
use crate::byte_str::ByteStr;
use crate::error::{Fault, Refusal};
use crate::list::List;
use crate::value::{Format, Value};
use crate::Oid;
use pgmsg_core::pg_base::io::part::{Number16, Number32, Then, ThenFirst};
use pgmsg_core::pg_base::io::Ended;
use pgmsg_core::pg_send::message::counted::{Codes, ParamFormats, ResultFormats};
use pgmsg_core::pg_send::message::round_trip::check_name;
use pgmsg_core::pg_send::message::values::CountedValues;
use pgmsg_core::pg_server::frontend::{BindRef, FormatCodes, FunctionCallRef, Values};

/// A portal that is made of a prepared statement and the values of its parameters.
///
/// A list of formats is empty where all are text, has one where that one is of all, or else one for each.
/// A list of another length is sent and read as it is: a server refuses it.
///
/// ```
/// use pgmsg::frontend::Bind;
/// use pgmsg::{Format, Value};
///
/// let number = 7i32.to_be_bytes();
/// let bind = Bind {
///     statement: "s0".into(),
///     formats: [Format::BINARY].into(),
///     values: [Value::new(&number), Value::NULL].into(),
///     ..Bind::default()
/// };
/// let mut out = Vec::new();
/// bind.write(&mut out)?;
/// assert_eq!(Bind::read(&out[5..])?, bind);
/// # Ok::<(), Box<dyn std::error::Error>>(())
/// ```
#[derive(Clone, Debug, Default, PartialEq, Eq)]
pub struct Bind<'a> {
    /// The name of the portal, empty for the unnamed one.
    pub portal: ByteStr<'a>,
    /// The name of the statement, empty for the unnamed one.
    pub statement: ByteStr<'a>,
    /// The formats of the values.
    pub formats: List<'a, Format>,
    /// The values.
    pub values: List<'a, Value<'a>>,
    /// The formats in which the columns of the result are wanted.
    pub result_formats: List<'a, Format>,
}

impl<'a> Bind<'a> {
    /// Reads the body of a Bind.
    pub fn read(body: &'a [u8]) -> Result<Bind<'a>, Fault> {
        let bind = BindRef::read(checked(body)?)?;
        Ok(Bind {
            portal: ByteStr(bind.portal),
            statement: ByteStr(bind.statement),
            formats: formats(bind.formats)?,
            values: values(bind.values)?,
            result_formats: formats(bind.result_formats)?,
        })
    }

    /// Appends the message.
    ///
    /// Refused with [`TextHoldsNul`](Refusal::TextHoldsNul) where a name holds a NUL, with
    /// [`BadParams`](Refusal::BadParams) above 65535 values, with
    /// [`TooManyParamFormats`](Refusal::TooManyParamFormats) or
    /// [`TooManyResultFormats`](Refusal::TooManyResultFormats) above 65535 formats.
    #[inline]
    pub fn write<B: Buffer>(&self, out: &mut B) -> Result<(), Refusal> {
        let sound = check_name(&self.portal).and(check_name(&self.statement));
        let values = CountedValues(&self.values[..]);
        let results = Codes(ResultFormats, &self.result_formats[..]);
        let parameters = Then(Codes(ParamFormats, &self.formats[..]), ThenFirst(values, results));
        let parts = Then(Ended(self.portal.0), Then(Ended(self.statement.0), parameters));
        put_sound(b'B', parts, sound, out)
    }
}

/// A call of a function, by its object id.
///
/// ```
/// use pgmsg::frontend::FunctionCall;
///
/// let call = FunctionCall::read(b"\0\0\x40\x01\0\0\0\x01\0\0\0\x015\0\x01")?;
/// assert_eq!((call.object_id, call.arguments[0].bytes()), (16385, Some(&b"5"[..])));
/// # let mut out = Vec::new();
/// call.write(&mut out)?;
/// # Ok::<(), Box<dyn std::error::Error>>(())
/// ```
#[derive(Clone, Debug, Default, PartialEq, Eq)]
pub struct FunctionCall<'a> {
    /// The object id of the function.
    pub object_id: Oid,
    /// The formats of the arguments, as those of a [`Bind`].
    pub formats: List<'a, Format>,
    /// The arguments.
    pub arguments: List<'a, Value<'a>>,
    /// The format in which the result is wanted.
    pub result_format: Format,
}

impl<'a> FunctionCall<'a> {
    /// Reads the body of a FunctionCall.
    pub fn read(body: &'a [u8]) -> Result<FunctionCall<'a>, Fault> {
        let call = FunctionCallRef::read(checked(body)?)?;
        Ok(FunctionCall {
            object_id: call.object_id.0,
            formats: formats(call.formats)?,
            arguments: values(call.arguments)?,
            result_format: Format(call.result_format as i16),
        })
    }

    /// Appends the message. Refused as [`Bind::write`] is, for its arguments and their formats.
    pub fn write<B: Buffer>(&self, out: &mut B) -> Result<(), Refusal> {
        let formats = Codes(ParamFormats, &self.formats[..]);
        let result = Number16(self.result_format.0 as u16);
        let arguments = Then(CountedValues(&self.arguments[..]), result);
        put_sound(b'F', Then(Number32(self.object_id), Then(formats, arguments)), Ok(()), out)
    }
}

/// The formats of a body.
fn formats<'a>(codes: FormatCodes<'_>) -> Result<List<'a, Format>, Refusal> {
    List::of(codes.len(), codes.map(|code| Format(code as i16)))
}

/// The values of a body.
fn values<'a>(values: Values<'a>) -> Result<List<'a, Value<'a>>, Refusal> {
    List::of(values.len(), values.map(Value::from))
}
