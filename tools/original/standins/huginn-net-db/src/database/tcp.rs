//! Stand-in: the loaded database is not in the text.

pub struct TcpDatabase;
