//! By hand: the private functions of types.rs, passed on.
use super::CanonicalAbiInfo;

pub fn align_to(a: u32, b: u32) -> u32 {
    super::align_to(a, b)
}

pub fn max(a: u32, b: u32) -> u32 {
    super::max(a, b)
}

pub fn add_flat(a: Option<u8>, b: Option<u8>) -> Option<u8> {
    super::add_flat(a, b)
}

pub fn max_flat(a: Option<u8>, b: Option<u8>) -> Option<u8> {
    super::max_flat(a, b)
}

pub fn variant(cases: &[Option<CanonicalAbiInfo>]) -> CanonicalAbiInfo {
    CanonicalAbiInfo::variant(cases.iter().map(Option::as_ref))
}
