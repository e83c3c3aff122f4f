//! Consumers of links are not here.
