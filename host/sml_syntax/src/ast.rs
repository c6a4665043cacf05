//! The typed tree, of which the source uses the root alone.

use crate::kind::SyntaxKind;
use event_parse::rowan_sink::{Element, Node};

/// A node of one kind.
pub trait AstNode: Sized {
    /// Returns it if the node is of that kind.
    fn cast(node: Node<SyntaxKind>) -> Option<Self>;

    /// Returns the node.
    fn syntax(&self) -> &Node<SyntaxKind>;
}

/// A whole file.
#[derive(Debug)]
pub struct Root(Node<SyntaxKind>);

impl AstNode for Root {
    fn cast(node: Node<SyntaxKind>) -> Option<Self> {
        match node.elements.first() {
            Some(Element::Open(SyntaxKind::Root)) => Some(Self(node)),
            _ => None,
        }
    }

    fn syntax(&self) -> &Node<SyntaxKind> {
        &self.0
    }
}
