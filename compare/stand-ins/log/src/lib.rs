//! Stand-in for the crate log. It writes nothing. A thread that listens keeps every debug
//! line: the original tells the criteria of its steps nowhere else.

use std::cell::RefCell;
use std::fmt::Arguments;

pub enum Level {
    Error,
    Warn,
    Info,
    Debug,
    Trace,
}

thread_local! {
    static LINES: RefCell<Option<Vec<String>>> = const { RefCell::new(None) };
}

/// From here on this thread keeps every debug line.
pub fn listen() {
    LINES.with(|lines| *lines.borrow_mut() = Some(Vec::new()));
}

/// The debug lines since `listen`; the thread listens no longer.
pub fn heard() -> Vec<String> {
    LINES
        .with(|lines| lines.borrow_mut().take())
        .unwrap_or_default()
}

#[doc(hidden)]
pub fn debug_line(line: Arguments) {
    LINES.with(|lines| {
        if let Some(all) = lines.borrow_mut().as_mut() {
            all.push(line.to_string());
        }
    });
}

#[macro_export]
macro_rules! debug {
    ($($arg:tt)*) => { $crate::debug_line(::core::format_args!($($arg)*)) };
}

#[macro_export]
macro_rules! log_enabled {
    ($level:expr) => {{
        let _ = $level;
        false
    }};
}

// The arguments are compiled and never read.
#[doc(hidden)]
#[macro_export]
macro_rules! silent {
    ($($arg:tt)*) => {
        if false {
            let _ = ::core::format_args!($($arg)*);
        }
    };
}

#[macro_export]
macro_rules! error {
    ($($arg:tt)*) => { $crate::silent!($($arg)*) };
}

#[macro_export]
macro_rules! warn {
    ($($arg:tt)*) => { $crate::silent!($($arg)*) };
}

#[macro_export]
macro_rules! info {
    ($($arg:tt)*) => { $crate::silent!($($arg)*) };
}

#[macro_export]
macro_rules! trace {
    ($($arg:tt)*) => { $crate::silent!($($arg)*) };
}
