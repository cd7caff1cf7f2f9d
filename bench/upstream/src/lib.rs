//! The Rust crate gix-config-value as programs with the formats of this repository's programs, and as C functions.

mod c_functions;
pub mod lines;
pub mod paths;

use gix_config_value::Path;
use std::ops::Deref;

/// The crate's type of byte strings, named by what its `Path` derefs to, so that no other dependency is needed.
pub(crate) type Bytes = <Path as Deref>::Target;
