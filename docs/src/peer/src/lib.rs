//! An independent program of document 01's rules with the event flags of request P1, the word for the endless wait of P2, the charges of
//! P3, the times of entry of P10 and the data queues of P11: 41 services, the sound state and the lists of calls.
//! It is written from the documents alone, so that the proved library can be tested and timed against it.

mod convert;
mod data_queues;
mod flags;
pub mod gen;
pub mod gen_files;
pub mod gen_lists;
mod gen_numbers;
pub mod gen_states;
pub mod kernel;
pub mod layout;
pub mod lists;
mod objects;
pub mod queue;
mod rng;
mod semaphores;
pub mod services;
pub mod shrink;
pub mod slots;
pub mod sound;
mod tasks;
mod time;
