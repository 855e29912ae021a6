//! Shim, empty. The published file of this name holds the commands that a client sends; lib.rs declares it, and nothing that is compared uses it.
