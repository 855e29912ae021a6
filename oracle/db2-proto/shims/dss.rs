//! Shim, empty. The published file of this name holds the framing of DRDA messages; lib.rs declares it, and nothing that is compared uses it.
