//! The second implementation in the place of the library, for a self-test. Its
//! reader of captures is the incremental one, so that a self-test tries that too.

use crate::incremental::INCREMENTAL;
use reference::wire::Side;

/// Not the library.
pub static LIBRARY: Side = Side {
    name: "stand-in, not the library",
    ..INCREMENTAL
};
