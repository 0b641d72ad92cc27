//! Kaltewi from Rust: a proved client of the Firebase Realtime Database that talks to no network itself.
//!
//! ```
//! # fn main() -> Result<(), kaltewi::Error> {
//! let mut client = kaltewi::Client::open(&[64])?;
//! client.connected()?;
//! let listener = client.seat(1).listen("/chat", None)?;
//! let sent: Vec<String> = client.outgoing().collect::<Result<_, _>>()?;       // to the server, each as one message
//! assert_eq!(sent, [r#"{"k":"hello","version":2}"#, r#"{"k":"listen","path":"/chat","tag":1}"#]);
//! client.receive(r#"{"k":"data","path":"/chat","tag":1,"value":{"m1":"hi"}}"#)?;
//! let told: Vec<String> = client.seat(1).items().collect::<Result<_, _>>()?;
//! assert_eq!(told[0], format!(r#"{{"k":"listened","listener":{listener}}}"#));
//! assert_eq!(
//!     told[1],
//!     r#"{"changes":[{"after":null,"k":"added","key":"m1","value":"hi"},{"k":"value","value":{"m1":"hi"}}],"k":"batch","listener":1}"#,
//! );
//! # Ok(())
//! # }
//! ```
//!
//! Trees, queries and items are JSON; `docs/FORMATS.md` says what they are, and what messages and lines are. A client and a core stay on
//! their thread.
#![warn(missing_docs)]

mod client;
mod core;
mod error;
mod raw;

pub use crate::client::{Client, Items, Kinds, Outgoing, Seat};
pub use crate::core::{Core, Lines};
pub use crate::error::Error;
