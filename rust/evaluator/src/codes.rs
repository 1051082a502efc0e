//! The byte codes of a rule file, as document 01's "The rule file" lists them.

/// Frame kinds; an input line begins with its own.
pub mod kind {
    pub const TYPE: u8 = 0x01;
    pub const FUNCTION: u8 = 0x02;
    pub const INPUT: u8 = 0x03;
    pub const NODE: u8 = 0x04;
    pub const LINE: u8 = 0x05;
}

/// Fields of a constructor.
pub mod field {
    pub const BOOL: u8 = 0x00;
    pub const INT: u8 = 0x01;
    pub const OWN: u8 = 0x02;
    pub const NAMED: u8 = 0x03;
}

/// Parameter, result, return and declared types.
pub mod types {
    pub const BOOL: u8 = 0x00;
    pub const INT: u8 = 0x01;
    pub const NAMED: u8 = 0x02;
}

/// Relations of a condition.
pub mod relation {
    pub const EQUAL: u8 = 0x00;
    pub const LESS: u8 = 0x01;
    pub const AT_MOST: u8 = 0x02;
}

/// Sizes.
pub mod size {
    pub const CONSTANT: u8 = 0x01;
    pub const VARIABLE: u8 = 0x02;
    pub const SUM: u8 = 0x03;
    pub const DIFFERENCE: u8 = 0x04;
}

/// Expressions.
pub mod expression {
    pub const BOOL: u8 = 0x10;
    pub const INT: u8 = 0x11;
    pub const VARIABLE: u8 = 0x12;
    pub const CHANNEL: u8 = 0x13;
    pub const PREVIOUS: u8 = 0x14;
    pub const LET: u8 = 0x15;
    pub const IF: u8 = 0x16;
    pub const OPERATION: u8 = 0x17;
    pub const CALL: u8 = 0x18;
    pub const CONSTRUCTION: u8 = 0x19;
    pub const CASE: u8 = 0x1A;
    pub const ADJUST: u8 = 0x1B;
    pub const FIT: u8 = 0x1C;
}

/// Operators.
pub mod operator {
    pub const ADD: u8 = 0x00;
    pub const SUBTRACT: u8 = 0x01;
    pub const MULTIPLY: u8 = 0x02;
    pub const EQUAL: u8 = 0x03;
    pub const LESS: u8 = 0x04;
    pub const AT_MOST: u8 = 0x05;
    pub const AND: u8 = 0x06;
    pub const OR: u8 = 0x07;
}
