//! The crate's answers to calls of `interpolate`, in the lines of `path_answers`.
//!
//! A call is four fields between tabs, texts in hexadecimal digits: the value, the install directory or `-`, the home
//! directory or `-`, and what the lookup knows, as `user=directory` between commas, or `-` if there is no lookup.
//! The answer is the flag, the value after the mark, how often the lookup was called, and the text or the error.

use gix_config_value::Path;
use gix_config_value::path::interpolate::Context;
use std::cell::{Cell, RefCell};
use std::ffi::OsString;
use std::fmt::Display;
use std::os::unix::ffi::{OsStrExt, OsStringExt};
use std::path::PathBuf;

/// The beginning of the text of each error of the crate, and its name in an answer. A beginning of another is after it.
const ERRORS: [(&str, &str); 10] = [
    ("path is missing", "PathMissing"),
    ("git install dir is missing", "InstallDirMissing"),
    ("home dir is missing", "HomeMissing"),
    ("home for user lookup is missing", "LookupMissing"),
    ("pwd user info is missing", "UserNotFound"),
    (
        "Ill-formed UTF-8 in path past %(prefix)",
        "IllFormed\tPastPrefix",
    ),
    ("Ill-formed UTF-8 in path past ~/", "IllFormed\tPastHome"),
    (
        "Ill-formed UTF-8 in path past ~user/",
        "IllFormed\tPastUser",
    ),
    ("Ill-formed UTF-8 in username", "IllFormed\tUsername"),
    ("Ill-formed UTF-8 in path", "IllFormed\tWhole"),
];

/// A user and the user's home directory.
struct User {
    name: Vec<u8>,
    home: PathBuf,
}

// the crate takes a plain function as its lookup, so the users that this one knows are outside of it
thread_local! {
    static USERS: RefCell<Vec<User>> = const { RefCell::new(Vec::new()) };
    static CALLS: Cell<u32> = const { Cell::new(0) };
}

fn home_of(name: &str) -> Option<PathBuf> {
    CALLS.set(CALLS.get() + 1);
    USERS.with_borrow(|users| {
        let user = users.iter().find(|user| user.name == name.as_bytes())?;
        Some(user.home.clone())
    })
}

/// Returns the answer to a call, or `None` if the line is not a call.
pub fn answer(line: &str) -> Option<String> {
    let mut fields = line.splitn(5, '\t');
    let value = bytes(fields.next()?)?;
    let install = directory(fields.next()?)?;
    let home = directory(fields.next()?)?;
    let known = fields.next()?;
    USERS.set(users(known)?);
    CALLS.set(0);

    let mut path = Path::from("");
    path.value.extend_from_slice(&value);
    let path = Path::from(path.value);
    let behind_mark = path.value.to_vec();
    let flag = u8::from(path.is_optional);
    let result = path.interpolate(Context {
        git_install_dir: install.as_deref(),
        home_dir: home.as_deref(),
        home_for_user: (known != "-").then_some(home_of),
    });
    let outcome = match result {
        Ok(text) => format!("ok\t{}", digits(text.as_os_str().as_bytes())),
        Err(error) => refusal(&error, &behind_mark),
    };
    Some(format!(
        "{flag}\t{}\t{}\t{outcome}",
        digits(&behind_mark),
        CALLS.get()
    ))
}

/// Returns the name of an error in an answer, with the ill-formed bytes, which are cut from the value here.
fn refusal(error: &dyn Display, value: &[u8]) -> String {
    let text = error.to_string();
    let Some((_, name)) = ERRORS
        .iter()
        .find(|(beginning, _)| text.starts_with(beginning))
    else {
        return text;
    };
    let slash = value
        .iter()
        .position(|byte| *byte == b'/')
        .unwrap_or(value.len());
    let ill_formed = match name.strip_prefix("IllFormed\t") {
        None => return (*name).into(),
        Some("Whole") => value,
        Some("Username") => &value[1..slash],
        Some(_) => &value[slash + 1..],
    };
    format!("{name}\t{}", digits(ill_formed))
}

fn users(field: &str) -> Option<Vec<User>> {
    let entries = field.split(',').filter_map(|entry| entry.split_once('='));
    entries
        .map(|(name, home)| {
            Some(User {
                name: bytes(name)?,
                home: path(bytes(home)?),
            })
        })
        .collect()
}

fn directory(field: &str) -> Option<Option<PathBuf>> {
    if field == "-" {
        return Some(None);
    }
    Some(Some(path(bytes(field)?)))
}

fn path(bytes: Vec<u8>) -> PathBuf {
    OsString::from_vec(bytes).into()
}

/// Returns the bytes that these hexadecimal digits mean, or `None` if they are not such digits.
fn bytes(field: &str) -> Option<Vec<u8>> {
    let (pairs, rest) = field.as_bytes().as_chunks::<2>();
    let of_pair = |pair: &[u8; 2]| u8::from_str_radix(str::from_utf8(pair).ok()?, 16).ok();
    if rest.is_empty() {
        pairs.iter().map(of_pair).collect()
    } else {
        None
    }
}

fn digits(bytes: &[u8]) -> String {
    bytes.iter().map(|byte| format!("{byte:02x}")).collect()
}
