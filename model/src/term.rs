//! Terms in normal form: building them upward from expressions, their order, size,
//! whether they match the empty text, and their derivatives, all within the size limit.

use crate::book::Expr;
use crate::limits::TERM;
use std::collections::HashSet;
use std::hash::{DefaultHasher, Hash, Hasher};
use std::rc::Rc;

/// The shape of a term. The derived order is the order of terms: kinds as listed
/// here, then parts from left to right.
#[derive(Clone, Debug, PartialEq, Eq, PartialOrd, Ord, Hash)]
pub enum Shape {
    Nothing,
    Empty,
    Range(u8, u8),
    Cat(Term, Term),
    Alt(Term, Term),
    Star(Term),
    And(Term, Term),
    Not(Term),
}

/// A shape with facts that follow from it, so they never decide an order.
#[derive(Debug, PartialEq, Eq, PartialOrd, Ord)]
pub struct Node {
    pub shape: Shape,
    /// The number of tree nodes.
    pub size: usize,
    /// Whether the term matches the empty text.
    pub empty: bool,
    /// A hash of the shape, kept so that sets of terms are fast.
    mark: u64,
}

impl Hash for Node {
    fn hash<H: Hasher>(&self, state: &mut H) {
        state.write_u64(self.mark);
    }
}

pub type Term = Rc<Node>;

/// Said when a normal form has too many tree nodes.
#[derive(Clone, Copy, Debug, PartialEq, Eq)]
pub struct TooLong;

pub type Made = Result<Term, TooLong>;

/// Makes a node of a shape that is already normal.
fn node(shape: Shape) -> Made {
    let (size, empty) = match &shape {
        Shape::Nothing => (1, false),
        Shape::Empty => (1, true),
        Shape::Range(..) => (1, false),
        Shape::Cat(a, b) => (1 + a.size + b.size, a.empty && b.empty),
        Shape::Alt(a, b) => (1 + a.size + b.size, a.empty || b.empty),
        Shape::Star(a) => (1 + a.size, true),
        Shape::And(a, b) => (1 + a.size + b.size, a.empty && b.empty),
        Shape::Not(a) => (1 + a.size, !a.empty),
    };
    if size > TERM {
        return Err(TooLong);
    }
    let mut hasher = DefaultHasher::new();
    shape.hash(&mut hasher);
    let mark = hasher.finish();
    Ok(Rc::new(Node { shape, size, empty, mark }))
}

pub fn nothing() -> Made {
    node(Shape::Nothing)
}

pub fn empty() -> Made {
    node(Shape::Empty)
}

pub fn range(lo: u8, hi: u8) -> Made {
    node(Shape::Range(lo, hi))
}

/// One term after the other.
pub fn cat(a: &Term, b: &Term) -> Made {
    match (&a.shape, &b.shape) {
        (Shape::Nothing, _) | (_, Shape::Nothing) => nothing(),
        (Shape::Empty, _) => Ok(b.clone()),
        (_, Shape::Empty) => Ok(a.clone()),
        (Shape::Cat(x, y), _) => node(Shape::Cat(x.clone(), cat(y, b)?)),
        _ => node(Shape::Cat(a.clone(), b.clone())),
    }
}

/// Either of two terms; members that are Nothing are dropped.
pub fn alt(a: &Term, b: &Term) -> Made {
    let mut members = Vec::new();
    gather(Join::Alt, a, &mut members);
    gather(Join::Alt, b, &mut members);
    members.retain(|member| member.shape != Shape::Nothing);
    nested(Join::Alt, members)
}

/// Both of two terms; a member that is Nothing makes the whole Nothing.
pub fn and(a: &Term, b: &Term) -> Made {
    let mut members = Vec::new();
    gather(Join::And, a, &mut members);
    gather(Join::And, b, &mut members);
    if members.iter().any(|member| member.shape == Shape::Nothing) {
        return nothing();
    }
    nested(Join::And, members)
}

/// The two shapes that have members.
#[derive(Clone, Copy)]
enum Join {
    Alt,
    And,
}

/// The members of a normal term: its own if it is joined that way, else itself.
fn gather(join: Join, term: &Term, members: &mut Vec<Term>) {
    match (join, &term.shape) {
        (Join::Alt, Shape::Alt(a, b)) | (Join::And, Shape::And(a, b)) => {
            gather(join, a, members);
            gather(join, b, members);
        }
        _ => members.push(term.clone()),
    }
}

/// Members sorted, equal ones kept once, nested to the right.
fn nested(join: Join, mut members: Vec<Term>) -> Made {
    members.sort();
    members.dedup();
    let Some(mut whole) = members.pop() else {
        return nothing();
    };
    while let Some(member) = members.pop() {
        whole = node(match join {
            Join::Alt => Shape::Alt(member, whole),
            Join::And => Shape::And(member, whole),
        })?;
    }
    Ok(whole)
}

/// All texts but those of a term.
pub fn not(a: &Term) -> Made {
    match &a.shape {
        Shape::Not(inner) => Ok(inner.clone()),
        _ => node(Shape::Not(a.clone())),
    }
}

/// Zero or more of a term.
pub fn star(a: &Term) -> Made {
    match &a.shape {
        Shape::Nothing | Shape::Empty => empty(),
        Shape::Star(_) => Ok(a.clone()),
        _ => node(Shape::Star(a.clone())),
    }
}

/// The normal form of an expression; every part's normal form has to be short enough.
pub fn normal(expr: &Expr) -> Made {
    match expr {
        Expr::Nothing => nothing(),
        Expr::Empty => empty(),
        Expr::Range(lo, hi) => range(*lo, *hi),
        Expr::Cat(a, b) => cat(&normal(a)?, &normal(b)?),
        Expr::Alt(a, b) => alt(&normal(a)?, &normal(b)?),
        Expr::Star(a) => star(&normal(a)?),
        Expr::And(a, b) => and(&normal(a)?, &normal(b)?),
        Expr::Not(a) => not(&normal(a)?),
        Expr::Either(x) => {
            let capital = x.to_ascii_uppercase();
            alt(&range(*x, *x)?, &range(capital, capital)?)
        }
    }
}

/// What may follow the byte in the texts of the term; every part's derivative that is
/// worked out has to be short enough, also where the whole is Nothing without it.
pub fn derivative(term: &Term, byte: u8) -> Made {
    match &term.shape {
        Shape::Nothing | Shape::Empty => nothing(),
        Shape::Range(lo, hi) if *lo <= byte && byte <= *hi => empty(),
        Shape::Range(..) => nothing(),
        Shape::Alt(a, b) => alt(&derivative(a, byte)?, &derivative(b, byte)?),
        Shape::Star(a) => cat(&derivative(a, byte)?, term),
        Shape::And(a, b) => and(&derivative(a, byte)?, &derivative(b, byte)?),
        Shape::Not(a) => not(&derivative(a, byte)?),
        Shape::Cat(a, b) => {
            let front = cat(&derivative(a, byte)?, b)?;
            if !a.empty {
                return Ok(front);
            }
            alt(&front, &derivative(b, byte)?)
        }
    }
}

/// Adds the term and all its parts to a set of terms. A term that is there has
/// brought its parts along already.
pub fn collect(term: &Term, pool: &mut HashSet<Term>) {
    if !pool.insert(term.clone()) {
        return;
    }
    match &term.shape {
        Shape::Cat(a, b) | Shape::Alt(a, b) | Shape::And(a, b) => {
            collect(a, pool);
            collect(b, pool);
        }
        Shape::Star(a) | Shape::Not(a) => collect(a, pool),
        _ => {}
    }
}

/// Whether the term obeys every law of the normal form, looked at from the outside.
pub fn is_normal(term: &Term) -> bool {
    let dull = |t: &Term| matches!(t.shape, Shape::Nothing | Shape::Empty);
    match &term.shape {
        Shape::Nothing | Shape::Empty => true,
        Shape::Range(lo, hi) => lo <= hi,
        Shape::Cat(a, b) => {
            let nested = matches!(a.shape, Shape::Cat(..));
            !dull(a) && !dull(b) && !nested && is_normal(a) && is_normal(b)
        }
        Shape::Alt(a, b) => {
            let next = match &b.shape {
                Shape::Alt(x, _) => x,
                _ => b,
            };
            let lone = !matches!(a.shape, Shape::Nothing | Shape::Alt(..));
            lone && next.shape != Shape::Nothing && a < next && is_normal(a) && is_normal(b)
        }
        Shape::And(a, b) => {
            let next = match &b.shape {
                Shape::And(x, _) => x,
                _ => b,
            };
            let lone = !matches!(a.shape, Shape::Nothing | Shape::And(..));
            lone && next.shape != Shape::Nothing && a < next && is_normal(a) && is_normal(b)
        }
        Shape::Star(a) => !dull(a) && !matches!(a.shape, Shape::Star(_)) && is_normal(a),
        Shape::Not(a) => !matches!(a.shape, Shape::Not(_)) && is_normal(a),
    }
}
