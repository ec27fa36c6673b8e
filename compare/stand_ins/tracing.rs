//! Stand-in for `tracing`: the macros record their fields instead of printing them, since the
//! original works out metric, sum and percentage only for its log lines.

use std::cell::RefCell;

#[derive(Debug, Clone, PartialEq)]
pub enum Value {
    Number(i64),
    Float(f64),
    Flag(bool),
    Text(String),
}

impl From<i32> for Value {
    fn from(x: i32) -> Self {
        Value::Number(x.into())
    }
}

impl From<usize> for Value {
    fn from(x: usize) -> Self {
        Value::Number(x as i64)
    }
}

impl From<f64> for Value {
    fn from(x: f64) -> Self {
        Value::Float(x)
    }
}

impl From<bool> for Value {
    fn from(x: bool) -> Self {
        Value::Flag(x)
    }
}

impl From<String> for Value {
    fn from(x: String) -> Self {
        Value::Text(x)
    }
}

/// One log line: its text, and its fields in the order written.
#[derive(Debug, Clone, PartialEq)]
pub struct Event {
    pub message: String,
    pub fields: Vec<(&'static str, Value)>,
}

impl Event {
    pub fn field(&self, name: &str) -> Option<&Value> {
        self.fields.iter().find(|(n, _)| *n == name).map(|(_, v)| v)
    }
}

thread_local! {
    /// `None` while nobody asks, so that a long run does not pile up lines.
    static EVENTS: RefCell<Option<Vec<Event>>> = const { RefCell::new(None) };
}

/// Runs `call` and hands back, beside its answer, every line that it logged.
pub fn recorded<R>(call: impl FnOnce() -> R) -> (R, Vec<Event>) {
    EVENTS.with(|e| *e.borrow_mut() = Some(Vec::new()));
    let answer = call();
    let events = EVENTS.with(|e| e.borrow_mut().take());
    (answer, events.unwrap_or_default())
}

/// Whether a caller asks for the lines.
pub fn wanted() -> bool {
    EVENTS.with(|e| e.borrow().is_some())
}

pub fn record(message: String, fields: Vec<(&'static str, Value)>) {
    EVENTS.with(|e| {
        if let Some(events) = e.borrow_mut().as_mut() {
            events.push(Event { message, fields });
        }
    });
}

/// Takes the fields one by one; what is left is the text with its arguments.
#[macro_export]
macro_rules! take_fields {
    ($to:ident; $name:ident = ?$value:expr, $($rest:tt)+) => {{
        $to.push((stringify!($name), $crate::Value::Text(format!("{:?}", $value))));
        $crate::take_fields!($to; $($rest)+)
    }};
    ($to:ident; $name:ident = $value:expr, $($rest:tt)+) => {{
        $to.push((stringify!($name), $crate::Value::from($value)));
        $crate::take_fields!($to; $($rest)+)
    }};
    ($to:ident; $name:ident, $($rest:tt)+) => {{
        $to.push((stringify!($name), $crate::Value::from($name)));
        $crate::take_fields!($to; $($rest)+)
    }};
    ($to:ident; $($message:tt)+) => {
        format!($($message)+)
    };
}

#[macro_export]
macro_rules! debug {
    ($($line:tt)+) => {
        if $crate::wanted() {
            #[allow(unused_mut)]
            let mut fields = Vec::new();
            let message = $crate::take_fields!(fields; $($line)+);
            $crate::record(message, fields);
        }
    };
}

#[macro_export]
macro_rules! trace {
    ($($line:tt)+) => {
        $crate::debug!($($line)+)
    };
}
