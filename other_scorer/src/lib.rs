//! A second scorer, game and log for the table handset, written from documents 01 and 02 alone, and what it says.
//! Readings are found by always placing the lowest tile left, then sorted into document 01's order.

pub mod cards;
pub mod claim;
pub mod codec;
pub mod fu;
pub mod points;
pub mod reading;
pub mod ready;
pub mod record;
pub mod rotate;
pub mod score;
pub mod shape;
pub mod shown;
pub mod slip;
pub mod sound;
pub mod tiles;
pub mod unfinished;
pub mod waits;
pub mod win;
pub mod yaku;
pub mod yakuman;

pub mod entry;
pub mod game;
pub mod ledger;
pub mod log;
pub mod multi_ron;
pub mod pao;
pub mod position;

pub mod say;

pub mod cover;
pub mod damage;
pub mod deal;
pub mod example;
pub mod fault;
pub mod notation;
pub mod plan;
pub mod rng;
pub mod survey;
pub mod themes;
pub mod vector;

pub use codec::{read, write};
pub use entry::Entry;
pub use game::Game;
pub use ledger::Ledger;
pub use position::Position;
pub use record::{Hand, Meld};
pub use score::{score, Scored};
