//! ICU, where it is installed: it is looked for when the program runs, since its names have its version in them.
use crate::Code;
use std::ffi::{c_char, c_int, c_void, CString};
use std::ptr::{null, null_mut};

unsafe extern "C" {
    fn dlopen(name: *const c_char, mode: c_int) -> *mut c_void;
    fn dlsym(library: *mut c_void, name: *const c_char) -> *mut c_void;
}

/// RTLD_NOW of Linux.
const NOW: c_int = 2;

/// The versions that are looked for, the latest first.
const VERSIONS: std::ops::RangeInclusive<u32> = 50..=99;

type Converter = *mut c_void;
type Open = unsafe extern "C" fn(name: *const c_char, error: *mut c_int) -> Converter;
type Close = unsafe extern "C" fn(converter: Converter);
type ConvertEx = unsafe extern "C" fn(
    target: Converter,
    source: Converter,
    to: *mut *mut u8,
    to_end: *const u8,
    from: *mut *const u8,
    from_end: *const u8,
    pivot: *mut u16,
    pivot_source: *mut *mut u16,
    pivot_target: *mut *mut u16,
    pivot_end: *const u16,
    reset: i8,
    flush: i8,
    error: *mut c_int,
);

#[derive(Clone, Copy)]
pub struct Icu {
    pub version: u32,
    open: Open,
    close: Close,
    convert: ConvertEx,
}

impl Icu {
    /// The latest version that is installed.
    pub fn loaded() -> Option<Icu> {
        VERSIONS.rev().find_map(Icu::of_version)
    }

    fn of_version(version: u32) -> Option<Icu> {
        let name = CString::new(format!("libicuuc.so.{version}")).expect("no byte 00");
        // SAFETY: the name ends in a byte 00; what runs when the library is loaded is the library's.
        let library = unsafe { dlopen(name.as_ptr(), NOW) };
        if library.is_null() {
            return None;
        }
        let found = |name: &str| {
            let name = CString::new(format!("{name}_{version}")).expect("no byte 00");
            // SAFETY: the library is open, and the name ends in a byte 00.
            let place = unsafe { dlsym(library, name.as_ptr()) };
            Some(place).filter(|place| !place.is_null())
        };
        let [open, close, convert] = [
            found("ucnv_open")?,
            found("ucnv_close")?,
            found("ucnv_convertEx")?,
        ];
        // SAFETY: these are the functions that ICU's header ucnv.h declares by these names, with these parameters.
        Some(unsafe {
            Icu {
                version,
                open: std::mem::transmute::<*mut c_void, Open>(open),
                close: std::mem::transmute::<*mut c_void, Close>(close),
                convert: std::mem::transmute::<*mut c_void, ConvertEx>(convert),
            }
        })
    }

    /// Converters from a coding and to UTF-8.
    pub fn open(&self, code: Code) -> Converters {
        Converters {
            icu: *self,
            source: self.converter(code.name),
            target: self.converter("UTF-8"),
        }
    }

    fn converter(&self, code: &str) -> Converter {
        let name = CString::new(code).expect("no byte 00");
        let mut error = 0;
        // SAFETY: the name ends in a byte 00.
        let converter = unsafe { (self.open)(name.as_ptr(), &mut error) };
        assert!(!converter.is_null() && error <= 0, "ICU knows {code}");
        converter
    }
}

pub struct Converters {
    icu: Icu,
    source: Converter,
    target: Converter,
}

impl Converters {
    /// Writes the text's UTF-8, for which the buffer has room, and says how long it is.
    pub fn convert(&self, text: &[u8], buffer: &mut [u8]) -> usize {
        let text = text.as_ptr_range();
        let buffer = buffer.as_mut_ptr_range();
        let mut from = text.start;
        let mut to = buffer.start;
        let mut error = 0;
        // SAFETY: the converters are open, and read and write between the ends that they are told; without a pivot buffer they use one of their own.
        unsafe {
            (self.icu.convert)(
                self.target,
                self.source,
                &mut to,
                buffer.end,
                &mut from,
                text.end,
                null_mut(),
                null_mut(),
                null_mut(),
                null(),
                1,
                1,
                &mut error,
            )
        };
        assert!(error <= 0, "ICU failed with {error}");
        to as usize - buffer.start as usize
    }
}

impl Drop for Converters {
    fn drop(&mut self) {
        // SAFETY: the converters are open, and are not used after.
        unsafe {
            (self.icu.close)(self.source);
            (self.icu.close)(self.target);
        }
    }
}
