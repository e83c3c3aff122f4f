//! Links are not here.
