//! The syntax of a rule file (figure 1 of the paper, with the bytes of
//! document 01).

/// A whole rule file. Frames are numbered from 1: types, functions, inputs,
/// then nodes.
#[derive(Clone, Debug, Default, PartialEq, Eq)]
pub struct File {
    pub types: Vec<TypeDefinition>,
    pub functions: Vec<Function>,
    pub inputs: Vec<Input>,
    pub nodes: Vec<Node>,
}

#[derive(Clone, Debug, PartialEq, Eq)]
pub struct TypeDefinition {
    pub constructors: Vec<Constructor>,
}

#[derive(Clone, Debug, PartialEq, Eq)]
pub struct Constructor {
    pub fields: Vec<Field>,
}

/// A field of a constructor; `Own` is the type itself.
#[derive(Clone, Copy, Debug, PartialEq, Eq)]
pub enum Field {
    Bool,
    Int,
    Own,
    Named { type_index: usize, size: usize },
}

/// A type with its size ignored.
#[derive(Clone, Copy, Debug, PartialEq, Eq)]
pub enum PlainType {
    Bool,
    Int,
    Named(usize),
}

/// A channel's type, or the type of a part once its size is worked out.
#[derive(Clone, Copy, Debug, PartialEq, Eq)]
pub enum SizedType {
    Bool,
    Int,
    Named { type_index: usize, size: usize },
}

/// A result or return type, its size still to be worked out.
#[derive(Clone, Debug, PartialEq, Eq)]
pub enum WrittenType {
    Bool,
    Int,
    Named { type_index: usize, size: Size },
}

#[derive(Clone, Debug, PartialEq, Eq)]
pub enum Size {
    Constant(u8),
    Variable(usize),
    Sum(Box<Size>, Box<Size>),
    Difference(Box<Size>, Box<Size>),
}

#[derive(Clone, Copy, Debug, PartialEq, Eq)]
pub enum Relation {
    Equal,
    Less,
    AtMost,
}

#[derive(Clone, Debug, PartialEq, Eq)]
pub struct Condition {
    pub relation: Relation,
    pub left: Size,
    pub right: Size,
}

#[derive(Clone, Debug, PartialEq, Eq)]
pub struct Function {
    pub parameters: Vec<PlainType>,
    pub result: WrittenType,
    pub conditions: Vec<Condition>,
    /// The size variables whose sum falls at a self-call; repeats count.
    pub measure: Vec<usize>,
    pub body: Expression,
}

#[derive(Clone, Debug, PartialEq, Eq)]
pub struct Input {
    pub declared: SizedType,
    pub initial: Expression,
}

#[derive(Clone, Debug, PartialEq, Eq)]
pub struct Node {
    pub declared: SizedType,
    pub initial: Expression,
    pub update: Expression,
}

#[derive(Clone, Copy, Debug, PartialEq, Eq)]
pub enum Operator {
    Add,
    Subtract,
    Multiply,
    Equal,
    Less,
    AtMost,
    And,
    Or,
}

#[derive(Clone, Debug, PartialEq, Eq)]
pub enum Expression {
    Bool(bool),
    Int(i32),
    Variable(usize),
    /// The channel's value as it stands in this iteration.
    Channel(usize),
    /// The channel's value before this iteration.
    Previous(usize),
    Let(Box<Let>),
    If(Box<If>),
    Operation(Box<Operation>),
    Call(Call),
    Construction(Construction),
    Case(Box<Case>),
    Adjust(Box<Adjust>),
    Fit(Box<Fit>),
}

#[derive(Clone, Debug, PartialEq, Eq)]
pub struct Let {
    pub bound: Expression,
    pub body: Expression,
}

#[derive(Clone, Debug, PartialEq, Eq)]
pub struct If {
    pub condition: Expression,
    pub then_arm: Expression,
    pub else_arm: Expression,
}

#[derive(Clone, Debug, PartialEq, Eq)]
pub struct Operation {
    pub operator: Operator,
    pub left: Expression,
    pub right: Expression,
}

#[derive(Clone, Debug, PartialEq, Eq)]
pub struct Call {
    pub function: usize,
    pub arguments: Vec<Expression>,
}

#[derive(Clone, Debug, PartialEq, Eq)]
pub struct Construction {
    pub type_index: usize,
    pub constructor: usize,
    pub fields: Vec<Expression>,
}

#[derive(Clone, Debug, PartialEq, Eq)]
pub struct Case {
    pub type_index: usize,
    pub scrutinee: Expression,
    pub return_type: WrittenType,
    pub branches: Vec<Expression>,
}

#[derive(Clone, Debug, PartialEq, Eq)]
pub struct Adjust {
    pub size: Size,
    pub subject: Expression,
}

#[derive(Clone, Debug, PartialEq, Eq)]
pub struct Fit {
    pub size: usize,
    pub subject: Expression,
    pub fits: Expression,
    pub otherwise: Expression,
}

impl Operator {
    /// The type of both operands.
    pub fn operands(self) -> PlainType {
        match self {
            Operator::And | Operator::Or => PlainType::Bool,
            _ => PlainType::Int,
        }
    }

    /// Whether the result is an Int; it is a Bool otherwise.
    pub fn gives_int(self) -> bool {
        matches!(
            self,
            Operator::Add | Operator::Subtract | Operator::Multiply
        )
    }
}

impl Expression {
    /// The expressions that stand in this one, from left to right.
    pub fn parts(&self) -> Vec<&Expression> {
        match self {
            Expression::Bool(_) | Expression::Int(_) | Expression::Variable(_) => vec![],
            Expression::Channel(_) | Expression::Previous(_) => vec![],
            Expression::Let(parts) => vec![&parts.bound, &parts.body],
            Expression::If(parts) => vec![&parts.condition, &parts.then_arm, &parts.else_arm],
            Expression::Operation(parts) => vec![&parts.left, &parts.right],
            Expression::Call(parts) => parts.arguments.iter().collect(),
            Expression::Construction(parts) => parts.fields.iter().collect(),
            Expression::Case(parts) => {
                let scrutinee = std::iter::once(&parts.scrutinee);
                scrutinee.chain(&parts.branches).collect()
            }
            Expression::Adjust(parts) => vec![&parts.subject],
            Expression::Fit(parts) => vec![&parts.subject, &parts.fits, &parts.otherwise],
        }
    }
}

impl Constructor {
    /// The number of own-type fields, |I(χ)| in the paper.
    pub fn own_fields(&self) -> usize {
        let own = |field: &&Field| **field == Field::Own;
        self.fields.iter().filter(own).count()
    }
}

impl Field {
    /// The field's plain type in a constructor of type `owner`.
    pub fn plain(&self, owner: usize) -> PlainType {
        match *self {
            Field::Bool => PlainType::Bool,
            Field::Int => PlainType::Int,
            Field::Own => PlainType::Named(owner),
            Field::Named { type_index, .. } => PlainType::Named(type_index),
        }
    }
}

impl SizedType {
    pub fn plain(&self) -> PlainType {
        match *self {
            SizedType::Bool => PlainType::Bool,
            SizedType::Int => PlainType::Int,
            SizedType::Named { type_index, .. } => PlainType::Named(type_index),
        }
    }
}

impl SizedType {
    /// The size of a named type, 0 for Bool and Int (↓ in figure 3).
    pub fn size(&self) -> usize {
        match *self {
            SizedType::Bool | SizedType::Int => 0,
            SizedType::Named { size, .. } => size,
        }
    }

    /// The same type at another size.
    pub fn with_size(self, size: usize) -> SizedType {
        match self {
            SizedType::Named { type_index, .. } => SizedType::Named { type_index, size },
            SizedType::Bool | SizedType::Int => self,
        }
    }
}

impl WrittenType {
    pub fn plain(&self) -> PlainType {
        match *self {
            WrittenType::Bool => PlainType::Bool,
            WrittenType::Int => PlainType::Int,
            WrittenType::Named { type_index, .. } => PlainType::Named(type_index),
        }
    }
}

impl File {
    pub fn constructor(&self, type_index: usize, constructor: usize) -> &Constructor {
        &self.types[type_index].constructors[constructor]
    }

    /// Channel is document 01's word for an input or a node, inputs first.
    pub fn channel_count(&self) -> usize {
        self.inputs.len() + self.nodes.len()
    }

    pub fn declared(&self, channel: usize) -> SizedType {
        match self.inputs.get(channel) {
            Some(input) => input.declared,
            None => self.nodes[channel - self.inputs.len()].declared,
        }
    }

    pub fn initial(&self, channel: usize) -> &Expression {
        match self.inputs.get(channel) {
            Some(input) => &input.initial,
            None => &self.nodes[channel - self.inputs.len()].initial,
        }
    }

    /// The channel number of a node.
    pub fn node_channel(&self, node: usize) -> usize {
        self.inputs.len() + node
    }

    /// The node that a channel is; none where it is an input.
    pub fn channel_node(&self, channel: usize) -> Option<usize> {
        channel.checked_sub(self.inputs.len())
    }

    pub fn type_frame(&self, type_index: usize) -> usize {
        1 + type_index
    }

    pub fn function_frame(&self, function: usize) -> usize {
        1 + self.types.len() + function
    }

    pub fn channel_frame(&self, channel: usize) -> usize {
        1 + self.types.len() + self.functions.len() + channel
    }
}
