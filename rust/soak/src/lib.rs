//! Lists of calls of the session: made of the library or of the model, compared with the model, and held against the claims of documents
//! 01 and 02.

mod board;
pub mod calls;
pub mod lent;
pub mod library;
pub mod list;
pub mod lists;
