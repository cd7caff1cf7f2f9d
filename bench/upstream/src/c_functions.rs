//! The functions that `up.h` declares.

use crate::Bytes;
use gix_config_value::color::{Attribute, Name};
use gix_config_value::integer::Suffix;
use gix_config_value::path::interpolate::Context;
use gix_config_value::{Boolean, Color, Integer, Path};
use std::fmt::{self, Display, Write};
use std::hint::black_box;
use std::os::unix::ffi::OsStrExt;
use std::path::PathBuf;

/// The bytes of a caller's buffer for a text.
const ROOM: usize = 128;

/// The struct `up_integer` of the header.
#[repr(C)]
pub struct CInteger {
    number: i64,
    suffix: u8,
}

/// The struct `up_name` of the header.
#[derive(Clone, Copy)]
#[repr(C)]
pub struct CName {
    form: u8,
    numbers: [u8; 3],
}

/// The struct `up_color` of the header.
#[derive(Clone, Copy)]
#[repr(C)]
pub struct CColor {
    foreground: CName,
    background: CName,
    bits: u32,
}

const PALETTE: u8 = 18;
const RGB: u8 = 19;
const NO_NAME: CName = CName {
    form: 255,
    numbers: [0; 3],
};

/// The words of color names in the crate's order, which is that of their numbers in the header.
macro_rules! words {
    ($($word:ident $form:literal)*) => {
        impl From<Name> for CName {
            fn from(name: Name) -> Self {
                let (form, numbers) = match name {
                    $(Name::$word => ($form, [0; 3]),)*
                    Name::Ansi(number) => (PALETTE, [number, 0, 0]),
                    Name::Rgb(red, green, blue) => (RGB, [red, green, blue]),
                };
                CName { form, numbers }
            }
        }

        impl From<CName> for Option<Name> {
            fn from(name: CName) -> Self {
                let [first, second, third] = name.numbers;
                match name.form {
                    $($form => Some(Name::$word),)*
                    PALETTE => Some(Name::Ansi(first)),
                    RGB => Some(Name::Rgb(first, second, third)),
                    _ => None,
                }
            }
        }
    };
}
words! {
    Normal 0 Default 1
    Black 2 BrightBlack 3 Red 4 BrightRed 5 Green 6 BrightGreen 7 Yellow 8 BrightYellow 9
    Blue 10 BrightBlue 11 Magenta 12 BrightMagenta 13 Cyan 14 BrightCyan 15 White 16 BrightWhite 17
}

impl From<Integer> for CInteger {
    fn from(integer: Integer) -> Self {
        // the offsets of the suffixes are 10, 20 and 30
        let suffix = integer
            .suffix
            .map_or(0, |suffix| suffix.bitwise_offset() / 10);
        CInteger {
            number: integer.value,
            suffix: suffix as u8,
        }
    }
}

impl From<Color> for CColor {
    fn from(color: Color) -> Self {
        CColor {
            foreground: color.foreground.map_or(NO_NAME, CName::from),
            background: color.background.map_or(NO_NAME, CName::from),
            bits: color.attributes.bits(),
        }
    }
}

impl From<CColor> for Color {
    fn from(color: CColor) -> Self {
        Color {
            foreground: color.foreground.into(),
            background: color.background.into(),
            attributes: Attribute::from_bits_retain(color.bits),
        }
    }
}

/// The text that a caller passes.
///
/// # Safety
///
/// `text` points at `length` bytes, which nobody writes while the result lives.
unsafe fn handed<'a>(text: *const u8, length: usize) -> &'a Bytes {
    // SAFETY: as above
    unsafe { std::slice::from_raw_parts(text, length) }.into()
}

/// Writes a value to the caller's place and returns 1, or returns 0 if there is no value.
///
/// # Safety
///
/// `place` may be written.
unsafe fn handed_out<V, C: From<V>>(value: Option<V>, place: *mut C) -> u32 {
    let Some(value) = value else { return 0 };
    // SAFETY: as above
    unsafe { place.write(value.into()) };
    1
}

/// A text in the buffer of a caller.
struct Room<'a> {
    bytes: &'a mut [u8],
    length: usize,
}

impl Write for Room<'_> {
    fn write_str(&mut self, text: &str) -> fmt::Result {
        let end = self.length + text.len();
        let room = self.bytes.get_mut(self.length..end).ok_or(fmt::Error)?;
        room.copy_from_slice(text.as_bytes());
        self.length = end;
        Ok(())
    }
}

#[unsafe(no_mangle)]
pub unsafe extern "C" fn up_integer_read(
    text: *const u8,
    length: usize,
    value: *mut CInteger,
) -> u32 {
    // SAFETY: the header asks the caller for this, here and below
    unsafe { handed_out(Integer::try_from(handed(text, length)).ok(), value) }
}

#[unsafe(no_mangle)]
pub unsafe extern "C" fn up_amount_read(text: *const u8, length: usize, value: *mut i64) -> u32 {
    unsafe { handed_out(Integer::from_bytes::<i64>(handed(text, length)).ok(), value) }
}

#[unsafe(no_mangle)]
pub unsafe extern "C" fn up_boolean_read(text: *const u8, length: usize, value: *mut u8) -> u32 {
    let boolean = unsafe { Boolean::try_from(handed(text, length)) };
    unsafe { handed_out(boolean.ok().map(|boolean| boolean.0), value) }
}

#[unsafe(no_mangle)]
pub unsafe extern "C" fn up_name_read(text: *const u8, length: usize, value: *mut CName) -> u32 {
    unsafe { handed_out(Name::try_from(handed(text, length)).ok(), value) }
}

#[unsafe(no_mangle)]
pub unsafe extern "C" fn up_attribute_read(text: *const u8, length: usize, value: *mut u32) -> u32 {
    let attribute = unsafe { Attribute::try_from(handed(text, length)) };
    unsafe { handed_out(attribute.ok().map(|attribute| attribute.bits()), value) }
}

#[unsafe(no_mangle)]
pub unsafe extern "C" fn up_color_read(text: *const u8, length: usize, value: *mut CColor) -> u32 {
    unsafe { handed_out(Color::try_from(handed(text, length)).ok(), value) }
}

/// Writes the text that a value is shown as, and returns its length.
///
/// # Safety
///
/// `ROOM` bytes at `text` may be written.
unsafe fn shown(value: impl Display, text: *mut u8) -> usize {
    let mut room = Room {
        // SAFETY: as above
        bytes: unsafe { std::slice::from_raw_parts_mut(text, ROOM) },
        length: 0,
    };
    match write!(room, "{value}") {
        Ok(()) => room.length,
        Err(fmt::Error) => usize::MAX,
    }
}

/// Writes the text that a value is shown as, and returns its length, or `usize::MAX` if the text was refused.
///
/// # Safety
///
/// As for `shown`.
unsafe fn read_and_shown<V: Display, E>(value: Result<V, E>, text: *mut u8) -> usize {
    match value {
        // SAFETY: as above
        Ok(value) => unsafe { shown(value, text) },
        Err(_) => usize::MAX,
    }
}

#[unsafe(no_mangle)]
pub unsafe extern "C" fn up_color_show(value: *const CColor, text: *mut u8) -> usize {
    unsafe { shown(Color::from(*value), text) }
}

#[unsafe(no_mangle)]
pub unsafe extern "C" fn up_normalize(
    kind: u32,
    text: *const u8,
    length: usize,
    shown: *mut u8,
) -> usize {
    unsafe {
        let text = handed(text, length);
        match kind {
            1 => read_and_shown(Suffix::try_from(text), shown),
            2 => read_and_shown(Integer::try_from(text), shown),
            3 => read_and_shown(Integer::from_bytes::<i64>(text), shown),
            4 => read_and_shown(Boolean::try_from(text), shown),
            5 => read_and_shown(Name::try_from(text), shown),
            6 => read_and_shown(Attribute::try_from(text), shown),
            7 => read_and_shown(Color::try_from(text), shown),
            _ => usize::MAX,
        }
    }
}

/// The passwd text that `up_interpolate` looks users up in.
static PASSWD: &str = "alice:x:1000:1000::/home/alice:/bin/sh\n";

/// The lookup of `up_interpolate`: the home in the user's line of the passwd text, which is read anew each time.
fn home_in_passwd(name: &str) -> Option<PathBuf> {
    black_box(PASSWD).lines().find_map(|line| {
        let mut fields = line.split(':');
        if fields.next() != Some(name) {
            return None;
        }
        let home = fields.nth(4)?;
        let _shell = fields.next()?;
        fields.next().is_none().then(|| PathBuf::from(home))
    })
}

#[unsafe(no_mangle)]
pub unsafe extern "C" fn up_interpolate(text: *const u8, length: usize, path: *mut u8) -> usize {
    let value = Path::from(unsafe { handed(text, length) });
    let interpolated = value.interpolate(Context {
        git_install_dir: Some("/usr/lib/git".as_ref()),
        home_dir: Some("/home/bob".as_ref()),
        home_for_user: Some(home_in_passwd),
    });
    let Ok(interpolated) = interpolated else {
        return usize::MAX;
    };
    let bytes = interpolated.as_os_str().as_bytes();
    if bytes.len() > ROOM {
        return usize::MAX;
    }
    unsafe { path.copy_from_nonoverlapping(bytes.as_ptr(), bytes.len()) };
    bytes.len()
}
