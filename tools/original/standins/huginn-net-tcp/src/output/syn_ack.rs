//! Stand-in: the output of a SYN+ACK.

use super::{IpPort, OSQualityMatched};
use crate::observable::ObservableTcp;

#[derive(Debug)]
pub struct SynAckTCPOutput {
    pub source: IpPort,
    pub destination: IpPort,
    pub os_matched: OSQualityMatched,
    pub sig: ObservableTcp,
}
