//! Errors of acceptors are not here.
