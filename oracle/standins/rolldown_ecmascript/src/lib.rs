//! Stand-in of `rolldown_ecmascript`: a type that is named only.

#[derive(Debug)]
pub struct EcmaAst;
