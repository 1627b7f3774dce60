//! An Insert of a logical slot, read by hand as drivers do: into a vector of its values, which borrow the message.

#[derive(Clone, Copy)]
pub enum Value<'a> {
    Null,
    Unchanged,
    Text(&'a [u8]),
    Binary(&'a [u8]),
}

pub struct Insert<'a> {
    pub relation: u32,
    pub values: Vec<Value<'a>>,
}

/// The next bytes of a message, of which so many are taken off.
fn take<'a>(left: &mut &'a [u8], count: usize) -> Option<&'a [u8]> {
    let taken = left.get(..count)?;
    *left = &left[count..];
    Some(taken)
}

fn number(left: &mut &[u8], bytes: usize) -> Option<usize> {
    Some(take(left, bytes)?.iter().fold(0, |number, &byte| number << 8 | usize::from(byte)))
}

fn value<'a>(left: &mut &'a [u8]) -> Option<Value<'a>> {
    match number(left, 1)? as u8 {
        b'n' => Some(Value::Null),
        b'u' => Some(Value::Unchanged),
        kind @ (b't' | b'b') => {
            let length = number(left, 4)?;
            let bytes = take(left, length)?;
            Some(if kind == b't' { Value::Text(bytes) } else { Value::Binary(bytes) })
        }
        _ => None,
    }
}

impl<'a> Insert<'a> {
    pub fn read(content: &'a [u8]) -> Option<Insert<'a>> {
        let mut left = content.strip_prefix(b"I")?;
        let relation = number(&mut left, 4)? as u32;
        left = left.strip_prefix(b"N")?;
        let count = number(&mut left, 2)?;
        let mut values = Vec::with_capacity(count);
        for _ in 0..count {
            values.push(value(&mut left)?);
        }
        left.is_empty().then_some(Insert { relation, values })
    }
}

/// The sum of the table's number and the lengths of its values.
pub fn insert(content: &[u8]) -> usize {
    let insert = Insert::read(content).expect("an Insert");
    let lengths = insert.values.iter().map(|value| match value {
        Value::Null | Value::Unchanged => 0,
        Value::Text(bytes) | Value::Binary(bytes) => bytes.len(),
    });
    insert.relation as usize + lengths.sum::<usize>()
}
