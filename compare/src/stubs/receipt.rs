//! Stands in for `crate::receipt`.

#[derive(Copy, Clone, Debug, PartialEq, Eq)]
pub enum CaveatKind {
    ClassU,
    Unmodeled,
    Tripwire,
    TimingLint,
}

#[derive(Clone, Debug, PartialEq, Eq)]
pub struct Caveat {
    pub kind: CaveatKind,
    pub detail: String,
}

#[derive(Copy, Clone)]
pub struct Strictness;

pub enum Verdict {
    Pass,
    PassWithCaveats,
    Fail,
}

pub fn exit_code(_verdict: Verdict, _caveats: &[Caveat], _strictness: Strictness) -> u8 {
    0
}
