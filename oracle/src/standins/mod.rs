//! What the original leans on and its sources here lack, each as small as it allows.

pub mod bytes;
pub mod error;
pub mod index;
pub mod message;
