//! From the syntax to the strict text of document 01.

use evaluator::codes::{expression, field, kind, operator, relation, size, types};
use evaluator::syntax::{
    Adjust, Case, Condition, Expression, Field, File, Function, Operator, PlainType, Relation,
    Size, SizedType, TypeDefinition, WrittenType,
};
use evaluator::value::Tree;
use std::rc::Rc;

/// The strict text of a file.
pub fn text(file: &File) -> Vec<u8> {
    text_of_frames(&frames(file))
}

pub fn text_of_frames(frames: &[Vec<u8>]) -> Vec<u8> {
    frames.iter().flat_map(|frame| line_of(frame)).collect()
}

/// One line of upper-case hexadecimal pairs with its LF.
pub fn line_of(bytes: &[u8]) -> Vec<u8> {
    let pairs: String = bytes.iter().map(|byte| format!("{byte:02X}")).collect();
    format!("{pairs}\n").into_bytes()
}

/// The input line of the inputs' values.
pub fn input_line(values: &[Rc<Tree>]) -> Vec<u8> {
    line_of(&input_bytes(values))
}

pub fn input_bytes(values: &[Rc<Tree>]) -> Vec<u8> {
    let mut out = vec![kind::LINE];
    values.iter().for_each(|value| tree(&mut out, value));
    out
}

/// The bytes of each frame in file order.
pub fn frames(file: &File) -> Vec<Vec<u8>> {
    let types = file.types.iter().map(type_frame);
    let functions = file.functions.iter().map(function_frame);
    let inputs = file.inputs.iter().map(|input| {
        let mut out = channel_frame(kind::INPUT, input.declared);
        write(&mut out, &input.initial);
        out
    });
    let nodes = file.nodes.iter().map(|node| {
        let mut out = channel_frame(kind::NODE, node.declared);
        write(&mut out, &node.initial);
        write(&mut out, &node.update);
        out
    });
    types.chain(functions).chain(inputs).chain(nodes).collect()
}

fn type_frame(definition: &TypeDefinition) -> Vec<u8> {
    let mut out = vec![kind::TYPE, definition.constructors.len() as u8];
    for constructor in &definition.constructors {
        out.push(constructor.fields.len() as u8);
        out.extend(constructor.fields.iter().flat_map(field_bytes));
    }
    out
}

fn field_bytes(field: &Field) -> Vec<u8> {
    match *field {
        Field::Bool => vec![field::BOOL],
        Field::Int => vec![field::INT],
        Field::Own => vec![field::OWN],
        Field::Named { type_index, size } => vec![field::NAMED, type_index as u8, size as u8],
    }
}

fn function_frame(function: &Function) -> Vec<u8> {
    let mut out = vec![kind::FUNCTION, function.parameters.len() as u8];
    out.extend(function.parameters.iter().flat_map(parameter_bytes));
    written_type(&mut out, &function.result);
    out.push(function.conditions.len() as u8);
    function
        .conditions
        .iter()
        .for_each(|known| condition(&mut out, known));
    out.push(function.measure.len() as u8);
    out.extend(function.measure.iter().map(|variable| *variable as u8));
    write(&mut out, &function.body);
    out
}

fn parameter_bytes(parameter: &PlainType) -> Vec<u8> {
    match *parameter {
        PlainType::Bool => vec![types::BOOL],
        PlainType::Int => vec![types::INT],
        PlainType::Named(type_index) => vec![types::NAMED, type_index as u8],
    }
}

fn condition(out: &mut Vec<u8>, condition: &Condition) {
    out.push(match condition.relation {
        Relation::Equal => relation::EQUAL,
        Relation::Less => relation::LESS,
        Relation::AtMost => relation::AT_MOST,
    });
    write_size(out, &condition.left);
    write_size(out, &condition.right);
}

fn channel_frame(kind: u8, declared: SizedType) -> Vec<u8> {
    match declared {
        SizedType::Bool => vec![kind, types::BOOL],
        SizedType::Int => vec![kind, types::INT],
        SizedType::Named { type_index, size } => {
            vec![kind, types::NAMED, type_index as u8, size as u8]
        }
    }
}

fn written_type(out: &mut Vec<u8>, written: &WrittenType) {
    match written {
        WrittenType::Bool => out.push(types::BOOL),
        WrittenType::Int => out.push(types::INT),
        WrittenType::Named { type_index, size } => {
            out.extend([types::NAMED, *type_index as u8]);
            write_size(out, size);
        }
    }
}

fn write_size(out: &mut Vec<u8>, written: &Size) {
    match written {
        Size::Constant(constant) => out.extend([size::CONSTANT, *constant]),
        Size::Variable(variable) => out.extend([size::VARIABLE, *variable as u8]),
        Size::Sum(left, right) => {
            out.push(size::SUM);
            write_size(out, left);
            write_size(out, right);
        }
        Size::Difference(left, right) => {
            out.push(size::DIFFERENCE);
            write_size(out, left);
            write_size(out, right);
        }
    }
}

fn write(out: &mut Vec<u8>, written: &Expression) {
    match written {
        Expression::Bool(value) => out.extend([expression::BOOL, u8::from(*value)]),
        Expression::Int(value) => int(out, *value),
        Expression::Variable(at) => out.extend([expression::VARIABLE, *at as u8]),
        Expression::Channel(at) => out.extend([expression::CHANNEL, *at as u8]),
        Expression::Previous(at) => out.extend([expression::PREVIOUS, *at as u8]),
        Expression::Let(parts) => {
            let head = [expression::LET];
            write_parts(out, &head, &[&parts.bound, &parts.body]);
        }
        Expression::If(parts) => {
            let arms = [&parts.condition, &parts.then_arm, &parts.else_arm];
            write_parts(out, &[expression::IF], &arms);
        }
        Expression::Operation(parts) => {
            let head = [expression::OPERATION, operator_code(parts.operator)];
            write_parts(out, &head, &[&parts.left, &parts.right]);
        }
        Expression::Call(parts) => {
            let head = [expression::CALL, parts.function as u8];
            write_parts(out, &head, &parts.arguments.iter().collect::<Vec<_>>());
        }
        Expression::Construction(parts) => {
            let head = construction_head(parts.type_index, parts.constructor);
            write_parts(out, &head, &parts.fields.iter().collect::<Vec<_>>());
        }
        Expression::Case(parts) => write_case(out, parts),
        Expression::Adjust(parts) => write_adjust(out, parts),
        Expression::Fit(parts) => {
            let head = [expression::FIT, parts.size as u8];
            write_parts(out, &head, &[&parts.subject, &parts.fits, &parts.otherwise]);
        }
    }
}

/// Some bytes, then expressions.
fn write_parts(out: &mut Vec<u8>, head: &[u8], parts: &[&Expression]) {
    out.extend_from_slice(head);
    parts.iter().for_each(|part| write(out, part));
}

fn construction_head(type_index: usize, constructor: usize) -> [u8; 3] {
    [
        expression::CONSTRUCTION,
        type_index as u8,
        constructor as u8,
    ]
}

fn write_case(out: &mut Vec<u8>, parts: &Case) {
    out.extend([expression::CASE, parts.type_index as u8]);
    write(out, &parts.scrutinee);
    written_type(out, &parts.return_type);
    parts.branches.iter().for_each(|branch| write(out, branch));
}

fn write_adjust(out: &mut Vec<u8>, parts: &Adjust) {
    out.push(expression::ADJUST);
    write_size(out, &parts.size);
    write(out, &parts.subject);
}

fn int(out: &mut Vec<u8>, value: i32) {
    out.push(expression::INT);
    out.extend(value.to_be_bytes());
}

fn operator_code(operator: Operator) -> u8 {
    match operator {
        Operator::Add => operator::ADD,
        Operator::Subtract => operator::SUBTRACT,
        Operator::Multiply => operator::MULTIPLY,
        Operator::Equal => operator::EQUAL,
        Operator::Less => operator::LESS,
        Operator::AtMost => operator::AT_MOST,
        Operator::And => operator::AND,
        Operator::Or => operator::OR,
    }
}

/// A value as a `10`, `11` or `19` expression.
fn tree(out: &mut Vec<u8>, value: &Tree) {
    match value {
        Tree::Bool(value) => out.extend([expression::BOOL, u8::from(*value)]),
        Tree::Int(value) => int(out, *value),
        Tree::Construction {
            type_index,
            constructor,
            fields,
            ..
        } => {
            out.extend(construction_head(*type_index, *constructor));
            fields.iter().for_each(|field| tree(out, field));
        }
    }
}
