//! Another program for the lines of `rehearse`, written from document 001, paper 01 and request C-11 alone, to compare
//! with.
//!
//! In order:
//! - the protocol: [`licence`], [`message`], [`server`], [`client`], [`system`];
//! - the lines: [`parse`], [`session`];
//! - generated scripts: [`random`], [`samples`], [`unreadable`], [`lies`], [`plan`], [`generate`];
//! - the checker of demand 3: [`history`], [`rows`], [`check`], [`hunt`].
//!
//! [`fault`] names the mistakes that can be put into the protocol, to see that the checker finds them.
//! Names are the field's; paper 01 calls a server keeper, a client desk, a channel wire, a faulty server liar.

pub mod check;
pub mod client;
pub mod fault;
pub mod generate;
pub mod history;
pub mod hunt;
pub mod licence;
pub mod lies;
pub mod message;
pub mod parse;
pub mod plan;
pub mod random;
pub mod rows;
pub mod samples;
pub mod server;
pub mod session;
pub mod system;
pub mod unreadable;
