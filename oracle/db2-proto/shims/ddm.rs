//! Shim. The published file of this name reads DDM objects from a stream; sqlcard.rs and sqldard.rs use the two fields below.
//! So the object-level entries `parse_sqlcard` and `parse_sqldard` compile, and are not compared: no object is ever read here.

pub struct DdmObject {
    pub code_point: u16,
    pub data: Vec<u8>,
}
