//! The place of the crate clru, whose source is laid here where the command is given its folder.
