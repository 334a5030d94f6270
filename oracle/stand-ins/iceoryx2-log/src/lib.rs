//! The macros by which the crate answers errors. Nothing is logged; the arguments of a message are evaluated only.

#[macro_export]
macro_rules! fail {
    (from $origin:expr, with $error:expr, $($message:tt)*) => {{
        let _ = format_args!($($message)*);
        return Err($error.into());
    }};
    (from $origin:expr, when $call:expr, with $error:expr, $($message:tt)*) => {
        match $call {
            Ok(value) => value,
            Err(_) => $crate::fail!(from $origin, with $error, $($message)*),
        }
    };
    (from $origin:expr, when $call:expr, $($message:tt)*) => {
        match $call {
            Ok(value) => value,
            Err(error) => $crate::fail!(from $origin, with error, $($message)*),
        }
    };
}

#[macro_export]
macro_rules! fatal_panic {
    (from $origin:expr, when $call:expr, $($message:tt)*) => {
        match $call {
            Ok(value) => value,
            Err(_) => panic!($($message)*),
        }
    };
    (from $origin:expr, $($message:tt)*) => {
        panic!($($message)*)
    };
}

#[macro_export]
macro_rules! warn {
    (from $origin:expr, $($message:tt)*) => {{
        let _ = format_args!($($message)*);
    }};
}
