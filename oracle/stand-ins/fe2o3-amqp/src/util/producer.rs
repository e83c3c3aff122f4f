//! Producers of links are not here.
