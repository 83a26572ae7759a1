//! Stand-in: capture and the threads behind it are not in the text.

use crate::matcher_api::TcpMatcher;
use std::sync::Arc;

pub struct HuginnNetTcp;
pub type SharedTcpMatcher = Arc<dyn TcpMatcher>;
