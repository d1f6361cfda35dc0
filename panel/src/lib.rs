//! The panel for a depot: what each post is doing now, and whose numbers these are.
//!
//! Every number of a post comes out of a look-up of the table that is lent to the proved library.

pub mod arguments;
pub mod client;
pub mod clock;
pub mod follow;
pub mod http;
pub mod json;
pub mod library;
pub mod log;
pub mod news;
pub mod page;
pub mod pages;
pub mod posts;
pub mod program;
pub mod readings;
pub mod server;
pub mod state;
pub mod words;
