//! How the library is called.

/// One call, to which a slice or a vector is given as a pointer and a length: `in` is read, and `out` is written. What
/// follows `to` is a pointer itself, or a value.
///
/// SAFETY of each: a slice's pointer isn't null, and its length is that of what it points to. What is written is borrowed
/// by `&mut`, so it overlaps nothing else. A handle comes from `Handle::raw`, which borrows it for the call.
macro_rules! call {
    ($name:ident, $($words:tt)*) => { $crate::calls::call!(@ $name [] $($words)*,) };
    (@ $name:ident [$($ready:expr),*] $(,)?) => { unsafe { fabcommit_sys::$name($($ready),*) } };
    (@ $name:ident [$($ready:expr),*] in $slice:expr, $($words:tt)*) => {
        $crate::calls::call!(@ $name [$($ready,)* $slice.as_ptr(), $slice.len()] $($words)*)
    };
    (@ $name:ident [$($ready:expr),*] out $slice:expr, $($words:tt)*) => {
        $crate::calls::call!(@ $name [$($ready,)* $slice.as_mut_ptr(), $slice.len()] $($words)*)
    };
    (@ $name:ident [$($ready:expr),*] to $value:expr, $($words:tt)*) => {
        $crate::calls::call!(@ $name [$($ready,)* $value] $($words)*)
    };
}

pub(crate) use call;
