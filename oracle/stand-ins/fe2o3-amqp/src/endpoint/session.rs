/// A session's endpoint: nothing of it is used here.
pub(crate) trait Session {}
