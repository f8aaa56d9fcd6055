//! Types that hal.rs names in traits and conversions which the client does not use. They have the
//! shape that hal.rs takes apart, and nothing else.

#[derive(Debug)]
pub struct ObjectValue;

pub mod common {
    pub struct NetTime;
}

pub mod pdo {
    pub enum PayloadSizeError {
        InvalidRange(u16),
    }

    pub enum PdoError {
        ObjectNotFound {},
        TypeMismatch {},
        PayloadTooSmall {},
        ConfigurationError(&'static str),
    }
}
