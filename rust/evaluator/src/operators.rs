//! Operators on Int and Bool. Int is 32 bits; sums, differences and products
//! wrap; comparisons are signed; a Bool operand is 0 or 1.

use crate::syntax::Operator;

#[derive(Clone, Copy, Debug, PartialEq, Eq)]
pub enum Scalar {
    Bool(bool),
    Int(i32),
}

pub fn apply(operator: Operator, left: i32, right: i32) -> Scalar {
    match operator {
        Operator::Add => Scalar::Int(left.wrapping_add(right)),
        Operator::Subtract => Scalar::Int(left.wrapping_sub(right)),
        Operator::Multiply => Scalar::Int(left.wrapping_mul(right)),
        Operator::Equal => Scalar::Bool(left == right),
        Operator::Less => Scalar::Bool(left < right),
        Operator::AtMost => Scalar::Bool(left <= right),
        Operator::And => Scalar::Bool(left != 0 && right != 0),
        Operator::Or => Scalar::Bool(left != 0 || right != 0),
    }
}

/// What the left side decides alone (document 02, R-2): "`06` evaluates its right
/// side only when the left is true, `07` only when the left is false".
pub fn decided(operator: Operator, left: i32) -> Option<bool> {
    match (operator, left != 0) {
        (Operator::And, false) => Some(false),
        (Operator::Or, true) => Some(true),
        _ => None,
    }
}

#[cfg(test)]
mod tests {
    use super::*;

    #[test]
    fn sums_differences_and_products_wrap() {
        let wrapped = apply(Operator::Add, 2_147_483_647, 1);
        assert_eq!(wrapped, Scalar::Int(-2_147_483_648));
        let wrapped = apply(Operator::Subtract, -2_147_483_648, 1);
        assert_eq!(wrapped, Scalar::Int(2_147_483_647));
        let wrapped = apply(Operator::Multiply, 65_536, 65_536);
        assert_eq!(wrapped, Scalar::Int(0));
    }

    #[test]
    fn comparisons_are_signed() {
        assert_eq!(apply(Operator::Less, -1, 0), Scalar::Bool(true));
        assert_eq!(apply(Operator::AtMost, 0, -1), Scalar::Bool(false));
    }

    #[test]
    fn only_false_and_and_true_or_decide() {
        let deciding = [(Operator::And, 0, false), (Operator::Or, 1, true)];
        for (operator, left, value) in deciding {
            assert_eq!(decided(operator, left), Some(value));
            assert_eq!(decided(operator, 1 - left), None);
            assert_eq!(apply(operator, left, 0), Scalar::Bool(value));
            assert_eq!(apply(operator, left, 1), Scalar::Bool(value));
        }
        assert_eq!(decided(Operator::Equal, 0), None);
        assert_eq!(decided(Operator::Multiply, 0), None);
    }
}
