//! A script: the messages to encode, each a letter and its fields. Numbers are big-endian, bytes come
//! after their length in four bytes.

/// What a Parse names of these is a number of the first.
pub const TYPES: [u32; 8] = [25, 23, 20, 16, 1043, 1184, 701, 2950];

/// A format code is repeated at most as often.
pub const MOST_FORMATS: usize = 16;

/// A format code, and how often it is repeated.
#[derive(Clone, Copy)]
pub struct Formats {
    pub binary: bool,
    pub count: usize,
}

/// A message to encode. Portals and statements are numbers, 0 for the unnamed.
pub enum Message<'a> {
    Bind {
        portal: u32,
        statement: u32,
        formats: Formats,
        num_params: u16,
        /// The values, each after its length.
        params: &'a [u8],
        result_formats: Formats,
    },
    Execute {
        portal: u32,
        limit: u32,
    },
    Sync,
    Parse {
        statement: u32,
        query: &'a str,
        types: usize,
    },
    DescribePortal(u32),
    DescribeStatement(u32),
    Query(&'a str),
    CopyData(&'a [u8]),
}

/// The rest of a script.
pub struct Script<'a>(pub &'a [u8]);

impl<'a> Script<'a> {
    #[inline(always)]
    fn take(&mut self, count: usize) -> &'a [u8] {
        let (front, rest) = self.0.split_at(count);
        self.0 = rest;
        front
    }

    #[inline(always)]
    fn u8(&mut self) -> u8 {
        self.take(1)[0]
    }

    #[inline(always)]
    fn u16(&mut self) -> u16 {
        u16::from_be_bytes(self.take(2).try_into().unwrap())
    }

    #[inline(always)]
    fn u32(&mut self) -> u32 {
        u32::from_be_bytes(self.take(4).try_into().unwrap())
    }

    #[inline(always)]
    fn bytes(&mut self) -> &'a [u8] {
        let count = self.u32();
        self.take(count as usize)
    }

    #[inline(always)]
    fn text(&mut self) -> &'a str {
        std::str::from_utf8(self.bytes()).unwrap()
    }

    #[inline(always)]
    fn formats(&mut self) -> Formats {
        let binary = self.u8() != 0;
        let count = usize::from(self.u8());
        Formats { binary, count }
    }
}

impl<'a> Iterator for Script<'a> {
    type Item = Message<'a>;

    #[inline(always)]
    fn next(&mut self) -> Option<Message<'a>> {
        if self.0.is_empty() {
            return None;
        }
        Some(match self.u8() {
            b'B' => Message::Bind {
                portal: self.u32(),
                statement: self.u32(),
                formats: self.formats(),
                num_params: self.u16(),
                params: self.bytes(),
                result_formats: self.formats(),
            },
            b'E' => Message::Execute {
                portal: self.u32(),
                limit: self.u32(),
            },
            b'S' => Message::Sync,
            b'P' => Message::Parse {
                statement: self.u32(),
                query: self.text(),
                types: usize::from(self.u8()),
            },
            b'D' => match self.u8() {
                0 => Message::DescribePortal(self.u32()),
                _ => Message::DescribeStatement(self.u32()),
            },
            b'Q' => Message::Query(self.text()),
            b'd' => Message::CopyData(self.bytes()),
            letter => panic!("no message has the letter {letter}"),
        })
    }
}
