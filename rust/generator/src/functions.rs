//! Random functions, most of them recursive over a list or tree.

use crate::expressions::{Composer, Signature};
use crate::linear::{Linear, Range};
use crate::random::Random;
use crate::scope::{Formed, Scope};
use evaluator::limits::PARAMETERS;
use evaluator::syntax::{
    Condition, Constructor, Expression, Function, PlainType, Relation, Size, TypeDefinition,
    WrittenType,
};

/// What a function is composed from.
pub struct Setting<'a> {
    pub types: &'a [TypeDefinition],
    pub earlier: &'a [Signature],
    pub loose: bool,
}

/// A function that follows the earlier ones.
pub fn random_function(random: &mut Random, setting: &Setting) -> (Signature, Function) {
    let parameters = random_parameters(random, setting.types);
    let mut scope = scope_of(&parameters);
    let conditions = random_conditions(random, &mut scope);
    let wanted = random_result(random, setting.types, &scope);
    let measure = random_measure(random, &scope);
    scope.measure = Some(summed(&measure, &scope));
    let signature = Signature {
        parameters,
        result: scope
            .write_type(random, &wanted)
            .unwrap_or(WrittenType::Int),
        conditions,
        measure,
    };
    let body = random_body(random, setting, &signature, &scope, &wanted);
    let function = Function {
        parameters: signature.parameters.clone(),
        result: signature.result.clone(),
        conditions: signature.conditions.clone(),
        measure: signature.measure.clone(),
        body,
    };
    (signature, function)
}

fn random_parameters(random: &mut Random, types: &[TypeDefinition]) -> Vec<PlainType> {
    let count = match random.below(12) {
        0 => 0,
        1 => random.between(1, PARAMETERS),
        _ => random.between(1, 3),
    };
    let mut parameters = Vec::with_capacity(count);
    for _ in 0..count {
        parameters.push(match random.below(5) {
            0 => PlainType::Bool,
            1 => PlainType::Int,
            _ if types.is_empty() => PlainType::Int,
            _ => PlainType::Named(random.below(types.len())),
        });
    }
    parameters
}

/// Each named parameter brings an atom as its size variable.
fn scope_of(parameters: &[PlainType]) -> Scope {
    let mut scope = Scope::default();
    for parameter in parameters {
        let variable = match parameter {
            PlainType::Bool => Formed::Bool,
            PlainType::Int => Formed::Int,
            PlainType::Named(type_index) => {
                let size = scope.fresh(None);
                scope.size_variables.push(size.clone());
                Formed::Named(*type_index, size)
            }
        };
        scope.variables.push(variable);
    }
    scope
}

/// Conditions on single size variables narrow what is known of them; now and
/// then one compares two.
fn random_conditions(random: &mut Random, scope: &mut Scope) -> Vec<Condition> {
    let mut conditions = Vec::new();
    for variable in 0..scope.size_variables.len() {
        let range = &mut scope.ranges[variable];
        if let Some(condition) = random_condition(random, variable, range) {
            conditions.push(condition);
        }
    }
    if scope.size_variables.len() > 1 && random.one_in(5) {
        conditions.push(Condition {
            relation: *random.pick(&[Relation::Equal, Relation::Less, Relation::AtMost]),
            left: Size::Variable(0),
            right: Size::Variable(1),
        });
    }
    conditions
}

fn random_condition(random: &mut Random, variable: usize, range: &mut Range) -> Option<Condition> {
    let bound = random.below(3);
    let (relation, left, right) = match random.below(5) {
        0 | 1 => {
            range.least = bound as i64 + 1;
            let bound = Size::Constant(bound as u8);
            (Relation::Less, bound, Size::Variable(variable))
        }
        2 => {
            let bound = random.between(5, 20);
            range.most = Some(bound as i64);
            let bound = Size::Constant(bound as u8);
            (Relation::AtMost, Size::Variable(variable), bound)
        }
        _ => return None,
    };
    Some(Condition {
        relation,
        left,
        right,
    })
}

fn random_result(random: &mut Random, types: &[TypeDefinition], scope: &Scope) -> Formed {
    let named = |variable: &&Formed| matches!(variable, Formed::Named(..));
    let named: Vec<&Formed> = scope.variables.iter().filter(named).collect();
    match (random.below(7), random.try_pick(&named)) {
        (0, _) => Formed::Bool,
        (1 | 2, _) => Formed::Int,
        (3, _) if !types.is_empty() => {
            let size = Linear::constant(random.between(1, 4) as i64);
            Formed::Named(random.below(types.len()), size)
        }
        (_, Some(Formed::Named(type_index, form))) => {
            Formed::Named(*type_index, random_growth(random, scope, form))
        }
        _ => Formed::Int,
    }
}

/// The size of a named parameter, more, or one less where that is at least 1.
fn random_growth(random: &mut Random, scope: &Scope, form: &Linear) -> Linear {
    let least = crate::linear::least(form, &scope.ranges).unwrap_or(1);
    match random.below(4) {
        0 | 1 => form.clone(),
        2 if least > 1 => form.plus_constant(-1),
        _ => form.plus_constant(random.between(1, 2) as i64),
    }
}

fn random_measure(random: &mut Random, scope: &Scope) -> Vec<usize> {
    let count = scope.size_variables.len();
    if count == 0 || random.one_in(4) {
        return Vec::new();
    }
    match random.one_in(4) {
        true => (0..count).collect(),
        false => vec![random.below(count)],
    }
}

fn summed(measure: &[usize], scope: &Scope) -> Linear {
    let sizes = measure
        .iter()
        .map(|variable| &scope.size_variables[*variable]);
    sizes.fold(Linear::constant(0), |sum, size| sum.plus(size))
}

fn random_body(
    random: &mut Random,
    setting: &Setting,
    signature: &Signature,
    scope: &Scope,
    wanted: &Formed,
) -> Expression {
    let mut signatures = setting.earlier.to_vec();
    signatures.push(signature.clone());
    let split = match signature.measure.first() {
        Some(variable) => measured_parameter(scope, *variable),
        None => None,
    };
    let mut composer = Composer {
        types: setting.types,
        signatures: &signatures,
        own: Some(setting.earlier.len()),
        channels: &[],
        current: &[],
        loose: setting.loose,
        budget: random.between(4, 24),
        self_calls: self_calls(setting.types, &split),
        deepest: random.between(4, 10),
        random,
    };
    let recursive = split.and_then(|source| composer.case(scope, source, wanted, 1));
    recursive.unwrap_or_else(|| composer.expression(scope, wanted, 1))
}

/// One self-call for each list or tree inside the one that is split: two on a
/// list would take time that doubles with each element.
fn self_calls(types: &[TypeDefinition], split: &Option<(Expression, Formed)>) -> usize {
    match split {
        Some((_, Formed::Named(type_index, _))) => {
            let constructors = types[*type_index].constructors.iter();
            let own = constructors.map(Constructor::own_fields).max();
            own.unwrap_or(0).clamp(1, 2)
        }
        _ => 1,
    }
}

/// The parameter whose size the size variable is.
fn measured_parameter(scope: &Scope, variable: usize) -> Option<(Expression, Formed)> {
    let size = &scope.size_variables[variable];
    let has_size = |known: &Formed| matches!(known, Formed::Named(_, form) if form == size);
    let at = scope.variables.iter().position(has_size)?;
    Some((Expression::Variable(at), scope.variables[at].clone()))
}
