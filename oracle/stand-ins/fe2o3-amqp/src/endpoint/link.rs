//! Links' endpoints are not here.
