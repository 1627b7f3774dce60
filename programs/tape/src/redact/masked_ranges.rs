//! The ranges of a message that are masked, and the message with masks in them.

use super::known_secrets::KnownSecrets;
use super::mask::{Mask, WHOLE};
use std::borrow::Cow;
use std::ops::Range;

/// A range, and what stands there then.
#[derive(Clone, Debug, PartialEq, Eq)]
struct MaskedRange {
    range: Range<usize>,
    mask: Mask,
    /// Where the value begins in which it is: the four bytes before are the length of that.
    value: Option<usize>,
}

/// Ranges in bytes, named by parts that are borrowed of these.
pub struct MaskedRanges<'k> {
    start: usize,
    len: usize,
    all: Vec<MaskedRange>,
    value: Option<usize>,
    is_tight: bool,
    /// The secrets of the whole recording.
    known: &'k mut KnownSecrets,
    /// How many values may be secrets, which can't be told.
    pub untold: u64,
}

impl<'k> MaskedRanges<'k> {
    pub fn new(bytes: &[u8], known: &'k mut KnownSecrets) -> MaskedRanges<'k> {
        let (start, len) = (bytes.as_ptr() as usize, bytes.len());
        MaskedRanges { start, len, all: Vec::new(), value: None, is_tight: false, known, untold: 0 }
    }

    /// Ranges in a part of the bytes, alone.
    pub fn of_part(&mut self, part: &[u8]) -> MaskedRanges<'_> {
        MaskedRanges::new(part, self.known)
    }

    /// What is added from here on is in a value whose length is in the four bytes before it.
    pub fn enter(&mut self, value: &[u8]) {
        self.value = self.at(value).map(|it| it.start);
        self.tighten(value.contains(&0));
    }

    /// Sets whether masks keep the lengths of what they mask from here on. No text has a byte 0, while a binary form with
    /// lengths inside, as that of an array or of COPY, has some.
    pub fn tighten(&mut self, is_tight: bool) {
        self.is_tight = is_tight;
    }

    fn at(&self, part: &[u8]) -> Option<Range<usize>> {
        let at = (part.as_ptr() as usize).wrapping_sub(self.start);
        let is_here = at < self.len && part.len() <= self.len - at;
        Some(at..at.wrapping_add(part.len())).filter(|_| is_here)
    }

    /// Has a part of the bytes masked, which is a secret throughout the recording.
    pub fn add(&mut self, part: &[u8], mask: Mask) {
        if let Some(secret) = mask.secret(part) {
            self.known.add(&secret, mask == Mask::Whole);
        }
        self.put(part, mask);
    }

    /// Has a string masked whose value is a secret throughout the recording.
    pub fn add_string(&mut self, part: &[u8], value: &[u8], mask: Mask) {
        self.known.add(value, mask == Mask::Whole);
        self.put(part, mask);
    }

    /// Has a part masked, here alone.
    pub fn put(&mut self, part: &[u8], mask: Mask) {
        let is_other = match &mask {
            Mask::Bytes(with) => with.len() != part.len(),
            mask => *mask == Mask::Whole,
        };
        let mask = match self.is_tight && is_other {
            true => Mask::Bytes(vec![WHOLE[0]; part.len()]),
            false => mask,
        };
        if let Some(range) = self.at(part).filter(|it| !it.is_empty()) {
            self.all.push(MaskedRange { range, mask, value: self.value });
        }
    }

    /// Has what is known as a secret masked in a part.
    pub fn put_known(&mut self, part: &[u8]) {
        for (range, mask) in self.known.find(part, self.is_tight) {
            self.put(&part[range], mask);
        }
    }

    /// Whether they are only to be learnt, and nothing is masked yet.
    pub fn are_learnt(&self) -> bool {
        !self.known.is_complete()
    }

    pub fn is_empty(&self) -> bool {
        self.all.is_empty()
    }

    /// The bytes with masks in the ranges. The length of the message, where it has one, is at this offset.
    pub fn masked<'b>(self, bytes: Cow<'b, [u8]>, head: Option<usize>) -> Cow<'b, [u8]> {
        if self.is_empty() {
            return bytes;
        }
        let mut bytes = bytes.into_owned();
        self.keep_lengths(&mut bytes);
        let splices = self.splices();
        for splice in &splices {
            let by = (splice.with.len() as u32).wrapping_sub(splice.range.len() as u32);
            let lengths = [head, splice.value.and_then(|it| it.checked_sub(4))];
            lengths.into_iter().flatten().for_each(|at| add_to(&mut bytes, at, by));
        }
        spliced(&bytes, &splices, |it| it.with.to_vec()).into()
    }

    /// The same of a name, with which of the bytes are of masks.
    pub fn masked_name(self, name: &[u8]) -> (Vec<u8>, Vec<bool>) {
        let mut is_masked = vec![false; name.len()];
        self.all.iter().for_each(|it| is_masked[it.range.clone()].fill(true));
        let is_masked = spliced(&is_masked, &self.splices(), |it| vec![true; it.with.len()]);
        (self.masked(name.into(), None).into_owned(), is_masked)
    }

    /// The ranges in their order, of masks that are as long as what they mask or of the others.
    fn sorted(&self, is_other: bool) -> Vec<&MaskedRange> {
        let mut ranges: Vec<&MaskedRange> =
            self.all.iter().filter(|it| it.mask.other().is_some() == is_other).collect();
        ranges.sort_by_key(|it| (it.range.start, usize::MAX - it.range.end));
        ranges
    }

    /// Puts the masks that are as long as what they mask. Where ranges overlap, the first one counts.
    fn keep_lengths(&self, bytes: &mut [u8]) {
        let mut end = 0;
        for masked in self.sorted(false) {
            let range = masked.range.start.max(end)..masked.range.end.max(end);
            masked.mask.put(&mut bytes[range]);
            end = end.max(masked.range.end);
        }
    }

    /// The other masks, where ranges that overlap are one.
    fn splices(&self) -> Vec<Splice<'_>> {
        let mut splices: Vec<Splice<'_>> = Vec::new();
        for masked in self.sorted(true) {
            match splices.last_mut() {
                Some(last) if masked.range.start < last.range.end => last.go_on(masked),
                _ => splices.push(Splice {
                    range: masked.range.clone(),
                    with: masked.mask.other().unwrap_or_default().into(),
                    value: masked.value,
                }),
            }
        }
        splices
    }
}

/// What stands in the place of a range, in a value that begins there.
struct Splice<'p> {
    range: Range<usize>,
    with: Cow<'p, [u8]>,
    value: Option<usize>,
}

impl Splice<'_> {
    /// Takes in a range that overlaps. Where both masks are as long as what they mask, so is that of the whole.
    fn go_on(&mut self, masked: &MaskedRange) {
        let passed = self.range.end - masked.range.start;
        if let (Mask::Bytes(more), true) = (&masked.mask, self.with.len() == self.range.len()) {
            if more.len() == masked.range.len() {
                self.with.to_mut().extend(more.iter().skip(passed));
            }
        }
        self.range.end = self.range.end.max(masked.range.end);
    }
}

/// A list in which ranges are replaced.
fn spliced<T: Clone>(
    items: &[T],
    splices: &[Splice<'_>],
    with: impl Fn(&Splice<'_>) -> Vec<T>,
) -> Vec<T> {
    let (mut out, mut end) = (Vec::with_capacity(items.len()), 0);
    for splice in splices {
        out.extend_from_slice(&items[end..splice.range.start]);
        out.extend(with(splice));
        end = splice.range.end;
    }
    out.extend_from_slice(&items[end..]);
    out
}

/// Adds to a number of four bytes.
fn add_to(bytes: &mut [u8], at: usize, by: u32) {
    if let Some(Ok(length)) = bytes.get(at..at + 4).map(<[u8; 4]>::try_from) {
        let length = u32::from_be_bytes(length).wrapping_add(by);
        bytes[at..at + 4].copy_from_slice(&length.to_be_bytes());
    }
}

#[cfg(test)]
mod tests {
    use super::*;
    use crate::redact::sql::quoted_passwords;

    #[test]
    fn masks_in_a_binary_form_are_as_long_as_what_they_mask() {
        let table: [(&[u8], &[u8]); 3] = [
            (b"\0abcd1234efgh", b"\0xxxxxxxxxxxx"),
            (b"\0abcd1234 1234efgh", b"\0xxxxxxxx xxxxxxxx"),
            (b"\0PASSWORD 'a'\n'bc'", b"\0PASSWORD 'x'\n'xx'"),
        ];
        for (bytes, wanted) in table {
            let mut known = KnownSecrets::default();
            ["abcd1234", "1234efgh"].iter().for_each(|it| known.add(it.as_bytes(), true));
            known.complete();
            let mut ranges = MaskedRanges::new(bytes, &mut known);
            ranges.enter(bytes);
            ranges.put_known(bytes);
            quoted_passwords(bytes, &mut ranges);
            assert_eq!(&*ranges.masked(bytes.into(), None), wanted);
        }
    }
}
