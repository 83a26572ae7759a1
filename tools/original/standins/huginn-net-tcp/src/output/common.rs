//! Stand-in: the output types that files in the text name, with the fields they use.

use crate::observable::TcpObservation;
use crate::tcp::{QuirkSet, guess_distance, observed_ttl};
use std::net::IpAddr;

#[derive(Debug, Clone)]
pub struct IpPort {
    pub ip: IpAddr,
    pub port: u16,
}

impl IpPort {
    pub fn new(ip: IpAddr, port: u16) -> Self {
        Self { ip, port }
    }
}

/// What a fuzzy match had to tolerate. Field names and types are those that `matching.rs` fills in.
#[derive(Debug, Clone, Copy, PartialEq, Eq)]
pub struct FuzzyReason {
    pub implausible_hop_distance: Option<u32>,
    pub added_quirks: QuirkSet,
    pub missing_quirks: QuirkSet,
}

#[derive(Debug, Clone)]
pub enum MatchRank {
    Specific,
    Generic,
    Fuzzy(FuzzyReason),
}

#[derive(Debug, Clone)]
pub enum MatchQuality {
    Matched(MatchRank),
    NotMatched,
    Disabled,
}

#[derive(Debug, Clone)]
pub struct OperativeSystem {
    pub name: String,
}

#[derive(Debug, Clone)]
pub struct OSQualityMatched {
    pub os: Option<OperativeSystem>,
    pub quality: MatchQuality,
    pub dist: u8,
    pub random_ttl: bool,
    pub excess_dist: bool,
    pub tos: u8,
}

impl OSQualityMatched {
    pub fn without_match(quality: MatchQuality, observed: &TcpObservation) -> Self {
        Self {
            os: None,
            quality,
            dist: guess_distance(observed_ttl(&observed.ittl)),
            random_ttl: false,
            excess_dist: false,
            tos: observed.tos,
        }
    }
}
