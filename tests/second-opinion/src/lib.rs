//! A second opinion: the order book of document 01, written again from the
//! papers alone, plain and slow. The drivers hand both books the same calls
//! and compare what they answer.

pub mod aimed;
pub mod book;
pub mod crc;
pub mod crossed;
pub mod damage;
pub mod decimal;
pub mod escapes;
pub mod json;
pub mod lines;
pub mod linked;
pub mod making;
pub mod message;
pub mod moved;
pub mod random;
pub mod replay;
pub mod script;
pub mod seen;
pub mod session;
pub mod settings;
pub mod steps;
pub mod sweep;
pub mod tally;
pub mod traffic;
pub mod twelve;
pub mod value;
pub mod vectors;
