//! Stand-in for the original's `crate::ast`, which registers.rs names for one register's node.

pub enum NodeKind {
    Register,
}

pub trait AstNode {
    #[allow(dead_code)]
    fn kind(&self) -> NodeKind;

    #[allow(dead_code)]
    fn content(&self) -> Option<String>;
}
