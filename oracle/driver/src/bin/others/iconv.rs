//! The C library's iconv.
use crate::Code;
use std::ffi::{c_char, c_int, c_void, CString};
use std::io::Error;
use std::ptr::null_mut;

unsafe extern "C" {
    fn iconv_open(to: *const c_char, from: *const c_char) -> *mut c_void;
    fn iconv(
        converter: *mut c_void,
        from: *mut *const u8,
        from_left: *mut usize,
        to: *mut *mut u8,
        to_left: *mut usize,
    ) -> usize;
    fn iconv_close(converter: *mut c_void) -> c_int;
}

/// What iconv and iconv_open answer where they fail.
const FAILED: usize = usize::MAX;

/// A malformed part begins here.
const EILSEQ: i32 = 84;
/// A sequence is cut by the end.
const EINVAL: i32 = 22;

const REPLACEMENT: &[u8] = "\u{FFFD}".as_bytes();

/// A converter to UTF-8.
pub struct Iconv {
    converter: *mut c_void,
    unit: usize,
}

impl Iconv {
    pub fn open(code: Code) -> Self {
        let name = CString::new(code.name).expect("no byte 00");
        // SAFETY: both names end in a byte 00.
        let converter = unsafe { iconv_open(c"UTF-8".as_ptr(), name.as_ptr()) };
        assert_ne!(converter as usize, FAILED, "iconv knows {}", code.name);
        Iconv {
            converter,
            unit: code.unit,
        }
    }

    /// Writes the text's UTF-8, for which the buffer has room, and says how long it is. A malformed part is a unit at a time.
    pub fn convert(&self, text: &[u8], buffer: &mut [u8]) -> usize {
        let mut from = 0;
        let mut to = 0;
        self.begin();
        loop {
            let status = self.go_on(text, &mut from, buffer, &mut to);
            if status == Ok(()) {
                return to;
            }
            buffer[to..to + 3].copy_from_slice(REPLACEMENT);
            to += 3;
            match status {
                Err(EILSEQ) => from += self.unit,
                Err(EINVAL) => return to,
                other => panic!("iconv failed: {other:?}"),
            }
        }
    }

    /// Forgets what was converted before.
    fn begin(&self) {
        // SAFETY: the converter is open.
        unsafe {
            iconv(
                self.converter,
                null_mut(),
                null_mut(),
                null_mut(),
                null_mut(),
            )
        };
    }

    /// Converts up to the end, or up to where it fails, with the number of the error.
    fn go_on(
        &self,
        text: &[u8],
        from: &mut usize,
        buffer: &mut [u8],
        to: &mut usize,
    ) -> Result<(), i32> {
        let rest = &text[*from..];
        let room = &mut buffer[*to..];
        let (mut source, mut left) = (rest.as_ptr(), rest.len());
        let (mut target, mut free) = (room.as_mut_ptr(), room.len());
        // SAFETY: the converter is open, and reads and writes no more bytes than it is told that there are.
        let status = unsafe {
            iconv(
                self.converter,
                &mut source,
                &mut left,
                &mut target,
                &mut free,
            )
        };
        let error = Error::last_os_error().raw_os_error();
        *from += rest.len() - left;
        *to += room.len() - free;
        match status {
            FAILED => Err(error.unwrap_or(0)),
            _ => Ok(()),
        }
    }
}

impl Drop for Iconv {
    fn drop(&mut self) {
        // SAFETY: the converter is open, and is not used after.
        unsafe { iconv_close(self.converter) };
    }
}
