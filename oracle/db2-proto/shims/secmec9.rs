//! Shim, empty. The published file of this name holds the encryption of passwords; lib.rs declares it, and nothing that is compared uses it.
