// The crate is the published lib.rs, in the source tree that build.rs lays out.
include!(concat!(env!("OUT_DIR"), "/lib.rs"));
