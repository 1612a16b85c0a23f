//! The operations on sequences of T-04: what each makes of its scope and its
//! arguments. The limits of a result are judged by the run.

use crate::grammar::Grammar;
use crate::tree::Tree;
use crate::typing::SequenceOperation;

/// The result of an operation. Scope and arguments fit it, as typed.
pub fn operate(
    grammar: &Grammar,
    operation: SequenceOperation,
    scope: &Tree,
    arguments: &[&Tree],
) -> Tree {
    let elements = match operation {
        SequenceOperation::Join => join(scope, arguments[0]),
        SequenceOperation::Select => select(scope, position(arguments[0]), position(arguments[1])),
        SequenceOperation::Head => select(scope, 1, position(arguments[0])),
        SequenceOperation::Tail => select(scope, position(arguments[0]), usize::MAX),
        SequenceOperation::Length => return length(scope, arguments[0]),
        SequenceOperation::Extract => extract(grammar, scope, arguments[0]),
    };
    Tree::sequence(grammar, scope.ty(), &elements)
}

/// The elements of the scope, then those of the argument, or the argument
/// itself if it is one element. A sequence of itself is "read as the repeat".
fn join(scope: &Tree, argument: &Tree) -> Vec<Tree> {
    let mut elements: Vec<Tree> = scope.elements().cloned().collect();
    if argument.ty() == scope.ty() {
        elements.extend(argument.elements().cloned());
    } else {
        elements.push(argument.clone());
    }
    elements
}

/// The elements from one position, counted from 1, through another. A start
/// under 1 becomes 1 and an end past the last becomes the last; a start past
/// the last stays, so that nothing is selected.
fn select(scope: &Tree, from: usize, to: usize) -> Vec<Tree> {
    let elements: Vec<Tree> = scope.elements().cloned().collect();
    let from = from.max(1);
    let to = to.min(elements.len());
    if to < from {
        Vec::new()
    } else {
        elements[from - 1..to].to_vec()
    }
}

/// The position that a number in hundredths gives, its fraction cut off.
fn position(number: &Tree) -> usize {
    number.value() as usize / 100
}

/// The scope with the number of the argument's elements, in hundredths.
fn length(scope: &Tree, argument: &Tree) -> Tree {
    let mut length = scope.clone();
    length.set_value(100 * argument.elements().count() as u32);
    length
}

/// The elements of the scope, then all trees of their type in the argument,
/// its root included, parent first and left to right. A tree that is taken is
/// not entered.
fn extract(grammar: &Grammar, scope: &Tree, argument: &Tree) -> Vec<Tree> {
    let mut elements: Vec<Tree> = scope.elements().cloned().collect();
    let wanted = grammar.element(scope.ty());
    let mut to_come = vec![argument];
    while let Some(tree) = to_come.pop() {
        if Some(tree.ty()) == wanted {
            elements.push(tree.clone());
        } else {
            to_come.extend(tree.children().iter().rev());
        }
    }
    elements
}
