//! The second program: written from document 01 and tickets 1 to 4, 6 and 7 of document 02 alone, word for word, and slow where
//! that is plainer. Ticket 5 changes no answer.

pub mod book;
pub mod by_hand;
pub mod calls;
pub mod ceilings;
pub mod ceilings_by_hand;
pub mod line;
pub mod meaning;
pub mod program;
pub mod refusals;
pub mod reversed;
pub mod rules;
pub mod samples;
pub mod seam;
pub mod tally;
pub mod two_way;
pub mod two_way_by_hand;
pub mod vertices;
pub mod vertices_by_hand;
