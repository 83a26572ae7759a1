//! Stand-in: the index key that `matching.rs` fills in.

use huginn_net_tcp::tcp::{IpVersion, PayloadSize};

#[derive(Debug, Clone, PartialEq, Eq, Hash)]
pub struct TcpIndexKey {
    pub ip_version_key: IpVersion,
    pub olayout_hash: u32,
    pub pclass_key: PayloadSize,
}
