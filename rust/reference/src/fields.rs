//! 01, 'The three files': fields of unsigned numbers, high byte first, taken in turn.

/// A reader's refusal: the number and the first byte of the failing field.
#[derive(Clone, Copy, Debug, PartialEq, Eq)]
pub struct Breach {
    /// The number of 'Where a number arises'.
    pub number: u32,
    /// The offset in the file.
    pub offset: usize,
}

/// The fields of one file that are not yet taken.
#[derive(Clone, Copy, Debug)]
pub struct Fields<'a> {
    rest: &'a [u8],
    length: usize,
}

impl<'a> Fields<'a> {
    /// All fields of the file `bytes`.
    #[inline(always)]
    pub fn new(bytes: &'a [u8]) -> Self {
        Fields { rest: bytes, length: bytes.len() }
    }

    /// The offset of the next field.
    #[inline(always)]
    pub fn position(&self) -> usize {
        self.length - self.rest.len()
    }

    /// Whether no byte remains.
    #[inline(always)]
    pub fn at_end(&self) -> bool {
        self.rest.is_empty()
    }

    /// The bytes of the fields not yet taken.
    #[inline(always)]
    pub fn rest(&self) -> &'a [u8] {
        self.rest
    }

    /// `number` at the next field.
    #[inline(always)]
    pub fn breach(&self, number: u32) -> Breach {
        Breach { number, offset: self.position() }
    }

    /// Takes a field of `N` bytes that has no rule of its own.
    #[inline(always)]
    pub fn field<const N: usize>(&mut self) -> Result<[u8; N], Breach> {
        let (field, rest) = self.rest.split_first_chunk().ok_or(self.breach(2))?;
        self.rest = rest;
        Ok(*field)
    }

    /// Takes a field of `N` bytes: incomplete gives 2, then `number` unless it is `good`.
    #[inline(always)]
    pub fn judged<const N: usize>(
        &mut self,
        number: u32,
        good: impl FnOnce([u8; N]) -> bool,
    ) -> Result<[u8; N], Breach> {
        let before = *self;
        let field = self.field()?;
        if good(field) { Ok(field) } else { Err(before.breach(number)) }
    }

    /// Takes a record's mark, one field of two letters.
    #[inline(always)]
    pub fn mark(&mut self, letters: &[u8; 2]) -> Result<(), Breach> {
        self.judged(1, |mark| mark == *letters).map(drop)
    }

    /// Takes all fields of a record that was found good, `width` bytes.
    #[inline(always)]
    pub fn record(&mut self, width: usize) {
        self.rest = &self.rest[width..];
    }

    /// 7 if a byte remains after schema or instance.
    #[inline(always)]
    pub fn end(&self) -> Result<(), Breach> {
        if self.at_end() { Ok(()) } else { Err(self.breach(7)) }
    }
}

/// The `N` bytes at `place` and `offset`, which a reader has found there.
#[inline(always)]
pub fn field_at<const N: usize>(bytes: &[u8], place: u16, offset: u8) -> [u8; N] {
    let start = usize::from(place) + usize::from(offset);
    let mut field = [0; N];
    field.copy_from_slice(&bytes[start..start + N]);
    field
}
