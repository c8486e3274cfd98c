//! Names for display, and for a call that is asked for by its name. Which numbers are operations is the library's to say.

const OPERATIONS: [(u64, &str); 37] = [
    (1, "IsValidPath"),
    (6, "QueryReferrers"),
    (7, "AddToStore"),
    (8, "AddTextToStore"),
    (9, "BuildPaths"),
    (10, "EnsurePath"),
    (11, "AddTempRoot"),
    (12, "AddIndirectRoot"),
    (13, "SyncWithGC"),
    (14, "FindRoots"),
    (18, "QueryDeriver"),
    (19, "SetOptions"),
    (20, "CollectGarbage"),
    (21, "QuerySubstitutablePathInfo"),
    (22, "QueryDerivationOutputs"),
    (23, "QueryAllValidPaths"),
    (26, "QueryPathInfo"),
    (28, "QueryDerivationOutputNames"),
    (29, "QueryPathFromHashPart"),
    (30, "QuerySubstitutablePathInfos"),
    (31, "QueryValidPaths"),
    (32, "QuerySubstitutablePaths"),
    (33, "QueryValidDerivers"),
    (34, "OptimiseStore"),
    (35, "VerifyStore"),
    (36, "BuildDerivation"),
    (37, "AddSignatures"),
    (38, "NarFromPath"),
    (39, "AddToStoreNar"),
    (40, "QueryMissing"),
    (41, "QueryDerivationOutputMap"),
    (42, "RegisterDrvOutput"),
    (43, "QueryRealisation"),
    (44, "AddMultipleToStore"),
    (45, "AddBuildLog"),
    (46, "BuildPathsWithResults"),
    (47, "AddPermRoot"),
];

/// The name of an operation; "unknown" where it has none.
pub fn operation(number: u64) -> &'static str {
    OPERATIONS.iter().find(|(known, _)| *known == number).map_or("unknown", |(_, name)| name)
}

/// The operation of that name.
pub fn number(name: &str) -> Option<u64> {
    OPERATIONS.iter().find(|(_, known)| *known == name).map(|(number, _)| *number)
}

/// What the daemon says by its trust number.
pub fn trust(number: u64) -> &'static str {
    match number {
        0 => "not known",
        1 => "trusted",
        2 => "not trusted",
        _ => "without a name",
    }
}
