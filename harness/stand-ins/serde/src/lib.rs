//! Stand-in for `serde`: its derives accept what the crate writes. A struct marked `transparent` can be made from its inner value, which is
//! what reading it would do; nothing is read or written otherwise.
pub use macros::{Deserialize, Serialize};

pub trait Transparent {
    type Inner;

    fn wrap(inner: Self::Inner) -> Self;
}
