//! The rules that tables are written and checked by.

/// The rules that a table is written by: the right ones, those before 02's order 3,
/// or one of several wrong ones. Tables by wrong rules show what a comparison of runs
/// can find.
#[derive(Clone, Copy, Debug, PartialEq, Eq)]
pub enum Rules {
    Right,
    /// 01's INIT before order 3, "arrays keep their levels". Not wrong but narrower:
    /// "Tables that passed before still pass".
    InitKeepsArrays,
    /// "A LOAD from a public array called public"
    LoadPublic,
    /// "A STORE that raises only the array it names."
    StoreNamed,
    /// "Caller's own levels put back after CALL"
    CallKeeps,
    /// "A loop body typed once with no return to L."
    LoopOnce,
    /// CALL leaves updated whatever its mark.
    CallUpdated,
    /// IF and WHILE leave updated as it is.
    BranchUpdated,
    /// PROTECT makes a secret public.
    ProtectAll,
    /// INIT makes secret registers public.
    InitAll,
    /// INIT makes secret arrays public.
    InitAllArrays,
    /// A write to r leaves outdated(r, s) as it is.
    WriteOutdated,
    /// WHILE goes on with the arriving environment, not L.
    LoopArriving,
    /// A LOAD FIXED is public whatever the array's level.
    FixedPublic,
    /// A LOAD FIXED of r leaves outdated(r, s) as it is.
    FixedOutdated,
    /// A STORE FIXED raises nothing.
    FixedRaisesNone,
    /// A STORE FIXED gives the array the source's own level, also a lower one.
    FixedLowers,
}

impl Rules {
    pub const WRONG: [Rules; 15] = [
        Rules::LoadPublic,
        Rules::StoreNamed,
        Rules::CallKeeps,
        Rules::LoopOnce,
        Rules::CallUpdated,
        Rules::BranchUpdated,
        Rules::ProtectAll,
        Rules::InitAll,
        Rules::InitAllArrays,
        Rules::WriteOutdated,
        Rules::LoopArriving,
        Rules::FixedPublic,
        Rules::FixedOutdated,
        Rules::FixedRaisesNone,
        Rules::FixedLowers,
    ];
}
