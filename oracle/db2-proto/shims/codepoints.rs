//! Shim. The published file of this name holds all DDM code points; sqlcard.rs and sqldard.rs use two. They decide only which
//! object the object-level entries `parse_sqlcard` and `parse_sqldard` accept, and those two are not compared.

pub const SQLCARD: u16 = 0x2408;
pub const SQLDARD: u16 = 0x2411;
