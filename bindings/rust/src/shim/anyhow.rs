//! Errors of any kind.

/// An error of any kind.
pub type Error = alloc::boxed::Box<dyn core::error::Error + Send + Sync + 'static>;

/// The error with a text.
macro_rules! anyhow {
    ($($text:tt)*) => {
        $crate::shim::anyhow::Error::from(alloc::format!($($text)*))
    };
}

pub(crate) use anyhow;
