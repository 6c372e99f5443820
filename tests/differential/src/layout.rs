//! Bytes that are written field by field, and remember where each field lies and what each length counts.

/// How a length is written. Lengths are put right when everything inside them is written.
#[derive(Clone, Copy, Debug, PartialEq)]
pub enum Length {
    Right,
    Is(usize),
    /// One that reaches so many bytes past the end of what is around it.
    PastEnd(usize),
    More(usize),
    Less(usize),
}

pub struct Field {
    pub name: &'static str,
    pub at: usize,
    pub size: usize,
}

/// What one length counts.
pub struct Span {
    pub name: &'static str,
    pub start: usize,
    pub end: usize,
    pub length_at: usize,
    pub length_size: usize,
    length: Length,
    around: Option<usize>,
}

#[derive(Default)]
pub struct Layout {
    pub bytes: Vec<u8>,
    pub fields: Vec<Field>,
    /// Outer ones first.
    pub spans: Vec<Span>,
    open: Vec<usize>,
}

impl Layout {
    pub fn number(&mut self, name: &'static str, size: usize, value: u64) {
        self.fields.push(Field { name, at: self.bytes.len(), size });
        self.bytes.extend(&value.to_be_bytes()[8 - size..]);
    }

    pub fn bytes(&mut self, bytes: &[u8]) {
        self.bytes.extend(bytes);
    }

    /// A length field that counts from `before` bytes ahead of itself, or behind itself where that is `None`.
    pub fn open(&mut self, name: &'static str, size: usize, before: Option<usize>, length: Length) {
        let length_at = self.bytes.len();
        let start = before.map_or(length_at + size, |before| length_at - before);
        let around = self.open.last().copied();
        self.open.push(self.spans.len());
        self.spans.push(Span { name, start, end: start, length_at, length_size: size, length, around });
        self.number(name, size, 0);
    }

    /// What the innermost open length counts ends here.
    pub fn close(&mut self) {
        let closed = self.open.pop().expect("a length is open");
        self.spans[closed].end = self.bytes.len();
        if self.open.is_empty() {
            self.write_lengths();
        }
    }

    fn write_lengths(&mut self) {
        for span in &self.spans {
            let right = span.end - span.start;
            let end_around = span.around.map_or(span.end, |around| self.spans[around].end);
            let length = match span.length {
                Length::Right => right,
                Length::Is(length) => length,
                Length::PastEnd(bytes) => end_around - span.start + bytes,
                Length::More(bytes) => right + bytes,
                Length::Less(bytes) => right - bytes,
            };
            set(&mut self.bytes, span.length_at, span.length_size, length as u64);
        }
    }
}

pub fn get(bytes: &[u8], at: usize, size: usize) -> u64 {
    bytes[at..at + size].iter().fold(0, |number, &byte| number << 8 | u64::from(byte))
}

pub fn set(bytes: &mut [u8], at: usize, size: usize, value: u64) {
    bytes[at..at + size].copy_from_slice(&value.to_be_bytes()[8 - size..]);
}

#[cfg(test)]
mod tests {
    use super::*;

    /// Two nested lengths over three bytes and two.
    fn nested(inner: Length) -> Vec<u8> {
        let mut layout = Layout::default();
        layout.open("outer", 1, Some(0), Length::Right);
        layout.open("inner", 2, None, inner);
        layout.bytes(&[7, 7, 7]);
        layout.close();
        layout.bytes(&[8, 8]);
        layout.close();
        layout.bytes
    }

    #[test]
    fn lengths_count_what_is_inside_or_miss_it_as_asked() {
        assert_eq!(nested(Length::Right), [8, 0, 3, 7, 7, 7, 8, 8]);
        assert_eq!(nested(Length::PastEnd(1))[..3], [8, 0, 6]);
        assert_eq!(nested(Length::Less(1))[..3], [8, 0, 2]);
        assert_eq!(nested(Length::Is(513))[..3], [8, 2, 1]);
    }
}
