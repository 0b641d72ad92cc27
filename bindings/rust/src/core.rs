//! A core that lines of a script drive.

use crate::error::{error_of, Error};
use crate::raw;

/// A core that lines of a script drive, with its source of push ids. It closes where it is dropped.
pub struct Core(raw::Handle);

impl Core {
    /// Opens a core.
    ///
    /// # Errors
    ///
    /// `NoMemory`.
    pub fn open() -> Result<Core, Error> {
        let mut handle = raw::Handle::closed();
        // SAFETY: the handle is closed, as the header asks, and nobody else has it.
        match unsafe { raw::kw_core_open(&mut handle) } {
            raw::DONE => Ok(Core(handle)),
            other => Err(error_of(other)),
        }
    }

    /// Does what a line asks for, without the line feed at its end, and gives what it prints.
    ///
    /// # Errors
    ///
    /// `BadLine` where it has none of the forms, and `NoMemory`.
    ///
    /// ```
    /// # fn main() -> Result<(), kaltewi::Error> {
    /// let mut core = kaltewi::Core::open()?;
    /// let refused = core.line("[\"connect\"]");
    /// assert_eq!(refused, Err(kaltewi::Error::BadLine("bad line 1\n".to_string())));
    /// # Ok(())
    /// # }
    /// ```
    pub fn line(&mut self, line: impl AsRef<[u8]>) -> Result<String, Error> {
        let line = line.as_ref();
        // SAFETY: the pointer and the length are a slice's, which nobody writes while it is borrowed.
        match unsafe { raw::kw_core_line(&mut self.0, line.as_ptr(), line.len()) } {
            raw::DONE => self.text(),
            raw::BAD_TEXT => Err(Error::BadLine(self.text()?)),
            other => Err(error_of(other)),
        }
    }

    /// What lines print, one after another; it ends behind the first that is refused.
    pub fn lines<'a, L>(&'a mut self, lines: L) -> Lines<'a, L::IntoIter>
    where
        L: IntoIterator,
        L::Item: AsRef<[u8]>,
    {
        Lines { core: self, lines: lines.into_iter(), is_over: false }
    }

    /// What the last line printed.
    fn text(&mut self) -> Result<String, Error> {
        // SAFETY: the room is a vector's, which nothing else borrows.
        let (status, text) = raw::text_by(|out, room, len| unsafe { raw::kw_core_text(&mut self.0, out, room, len) });
        if status == raw::DONE {
            Ok(text)
        } else {
            Err(error_of(status))
        }
    }
}

impl Drop for Core {
    fn drop(&mut self) {
        // SAFETY: the handle is this core's own.
        unsafe { raw::kw_core_close(&mut self.0) }
    }
}

/// What lines print, as [`Core::lines`] gives it.
pub struct Lines<'a, L> {
    core: &'a mut Core,
    lines: L,
    is_over: bool,
}

impl<L: Iterator> Iterator for Lines<'_, L>
where
    L::Item: AsRef<[u8]>,
{
    type Item = Result<String, Error>;

    fn next(&mut self) -> Option<Self::Item> {
        if self.is_over {
            return None;
        }
        let printed = self.core.line(self.lines.next()?);
        self.is_over = printed.is_err();
        Some(printed)
    }
}
