//! The original: its own entry for a packet, and the search that its fits stand for.

use crate::lists::List;
use crate::port::{EXACT, FUZZY, Given, NONE};
use huginn_net_tcp::HuginnNetTcpError;
use huginn_net_tcp::process::flow::ObservableTCPPackage;
use oracle::{FuzzyReason, SignatureFit, TcpObservation, fit, process};

pub use huginn_net_tcp::ConnectionTracker;

pub type Processed = Option<Result<ObservableTCPPackage, HuginnNetTcpError>>;

/// `process_tcp_ipv4` or `process_tcp_ipv6`, by the version nibble; its result as it comes.
#[inline(never)]
pub fn observe(packet: &[u8], tracker: &mut ConnectionTracker) -> Processed {
    process(packet, tracker)
}

#[inline(always)]
pub fn observation(processed: &Processed) -> Option<&TcpObservation> {
    let Some(Ok(package)) = processed else { return None };
    let seen = package.tcp_request.as_ref().or(package.tcp_response.as_ref())?;
    Some(&seen.matching)
}

pub type Found = Option<(usize, SignatureFit<FuzzyReason>)>;

/// The first specific exact record, else the first generic exact one, else the first fuzzy one. The original's own search is not in its
/// text. One function for all rows, so that its fit is compiled once, into it.
#[inline(never)]
pub fn find(list: &List, observed: &TcpObservation) -> Found {
    let (mut exact, mut fuzzy) = (None, None);
    for (i, signature) in list.signatures.iter().enumerate() {
        match fit(signature, observed) {
            None => {}
            Some(SignatureFit::Exact) if !list.generic[i] => return Some((i, SignatureFit::Exact)),
            Some(SignatureFit::Exact) => exact = exact.or(Some((i, SignatureFit::Exact))),
            Some(found) => fuzzy = fuzzy.or(Some((i, found))),
        }
    }
    exact.or(fuzzy)
}

#[inline(always)]
pub fn answer(packet: &[u8], tracker: &mut ConnectionTracker, list: &List) -> Found {
    let seen = observe(packet, tracker);
    find(list, observation(&seen)?)
}

/// The same answer to a SYN as the library gives it: record i has the label i.
pub fn given(found: &Found, list: &List) -> Given {
    let mut given = Given { outcome: NONE, kind: 1, examined: list.generic.len() as u16, ..Given::default() };
    let Some((i, fit)) = found else { return given };
    let generic = list.generic[*i];
    (given.label, given.number, given.marks) = (*i as u16, *i as u16, if generic { 4 } else { 0 });
    match fit {
        SignatureFit::Exact => {
            given.outcome = EXACT;
            given.examined = if generic { given.examined } else { *i as u16 + 1 };
        }
        SignatureFit::Fuzzy(reason) => {
            given.outcome = FUZZY;
            (given.added, given.missing) = (reason.added_quirks.bits() as u8, reason.missing_quirks.bits() as u8);
            if let Some(hops) = reason.implausible_hop_distance {
                (given.hops, given.marks) = (hops as u8, given.marks | 1);
            }
        }
    }
    given
}
