//! The macros that take a handle or an allocator, and a `;`. Their names begin with `__rattle_`
//! where they are exported, since that is at the root of the crate.

/// Rust's `assert!`, behind a handle.
#[doc(hidden)]
#[macro_export]
macro_rules! __rattle_assert {
    ($rt:expr; $($rest:tt)*) => {{
        let _ = &$rt;
        ::std::assert!($($rest)*)
    }};
}

/// Rust's `assert_eq!`, behind a handle.
#[doc(hidden)]
#[macro_export]
macro_rules! __rattle_assert_eq {
    ($rt:expr; $($rest:tt)*) => {{
        let _ = &$rt;
        ::std::assert_eq!($($rest)*)
    }};
}

/// Writes a line to standard output, or gives the error.
#[doc(hidden)]
#[macro_export]
macro_rules! __rattle_println {
    ($rt:expr; $($rest:tt)*) => {
        $rt.println(::std::format_args!($($rest)*))
    };
}

/// Writes a line to standard error, or gives the error.
#[doc(hidden)]
#[macro_export]
macro_rules! __rattle_eprintln {
    ($rt:expr; $($rest:tt)*) => {
        $rt.eprintln(::std::format_args!($($rest)*))
    };
}

/// The text that the arguments make, or an error of memory.
#[doc(hidden)]
#[macro_export]
macro_rules! __rattle_format {
    (in $alloc:expr; $($rest:tt)*) => {{
        let mut made = $crate::string::String::new($alloc);
        match made.write_fmt(::std::format_args!($($rest)*)) {
            ::std::result::Result::Ok(()) => ::std::result::Result::Ok(made),
            ::std::result::Result::Err(error) => ::std::result::Result::Err(error),
        }
    }};
}

/// The vector of the items, or an error of memory.
#[doc(hidden)]
#[macro_export]
macro_rules! __rattle_vec {
    (in $alloc:expr; $item:expr; $count:expr) => {
        $crate::vec::Vec::from_elem($alloc, $item, $count)
    };
    (in $alloc:expr; $($item:expr),* $(,)?) => {
        <$crate::vec::Vec<_> as $crate::vec::FromIter<_>>::from_iter(
            $alloc,
            ::std::iter::IntoIterator::into_iter([$($item),*]),
        )
    };
}

/// Returns an error of this text.
#[doc(hidden)]
#[macro_export]
macro_rules! __rattle_bail {
    ($($rest:tt)*) => {
        return ::std::result::Result::Err(
            $crate::anyhow::Error::msg(::std::format_args!($($rest)*)))
    };
}

/// The derived `clone` of an enum that isn't `Copy`, whose variants have one field or none.
#[doc(hidden)]
#[macro_export]
macro_rules! __rattle_derived_clone {
    ($name:ident { $($variant:ident $(($of:ty))?),+ $(,)? }) => {
        impl $crate::clone::Clone for $name {
            fn clone(&self) -> ::std::result::Result<Self, $crate::alloc::AllocError> {
                ::std::result::Result::Ok(match self {
                    $($name::$variant $(($crate::macros::second!($of; value)))? => {
                        $name::$variant $((<$of as $crate::clone::Clone>::clone(value)?))?
                    })+
                })
            }
        }
    };
}

/// A pattern, once for each type that is named before it.
#[doc(hidden)]
#[macro_export]
macro_rules! __rattle_second {
    ($first:ty; $second:pat) => {
        $second
    };
}

pub use {
    __rattle_assert as assert, __rattle_assert_eq as assert_eq, __rattle_bail as bail,
    __rattle_derived_clone as derived_clone, __rattle_eprintln as eprintln,
    __rattle_format as format, __rattle_println as println, __rattle_second as second,
    __rattle_vec as vec,
};
