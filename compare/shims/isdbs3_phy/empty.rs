//! Stands for a module that the compared files name and never use.
