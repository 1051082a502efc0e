//! The four kinds of frame, after their first byte.

use super::expressions::{Names, Scope};
use crate::answer::Refusal;
use crate::codes::{field, kind, relation, types};
use crate::cursor::Cursor;
use crate::limits::{
    CONDITIONS, CONSTRUCTORS, FIELDS, LARGEST_SIZE, LEAST_SIZE, MEASURES, PARAMETERS,
};
use crate::syntax::{
    Condition, Constructor, Field, File, Function, Input, Node, PlainType, Relation, SizedType,
    TypeDefinition,
};

pub struct FrameReader {
    file: File,
    /// The parameter count of each function read so far, the one being read
    /// included.
    arities: Vec<usize>,
    /// How many channels `13` and `14` may name in an update.
    channels: usize,
}

impl FrameReader {
    pub fn new(channels: usize) -> FrameReader {
        FrameReader {
            file: File::default(),
            arities: Vec::new(),
            channels,
        }
    }

    pub fn file(&self) -> &File {
        &self.file
    }

    pub fn into_file(self) -> File {
        self.file
    }

    pub fn read(&mut self, kind: u8, bytes: &[u8]) -> Result<(), Refusal> {
        let mut cursor = Cursor::new(bytes);
        match kind {
            kind::TYPE => self.type_definition(&mut cursor),
            kind::FUNCTION => self.function(&mut cursor),
            kind::INPUT => self.input(&mut cursor),
            _ => self.node(&mut cursor),
        }
    }

    fn type_definition(&mut self, cursor: &mut Cursor) -> Result<(), Refusal> {
        let count = cursor.count(1, CONSTRUCTORS)?;
        let mut constructors = Vec::with_capacity(count);
        for _ in 0..count {
            constructors.push(self.constructor(cursor)?);
        }
        cursor.end()?;
        if constructors.iter().all(|known| known.own_fields() > 0) {
            return Err(Refusal::SelfFreeConstructor);
        }
        self.file.types.push(TypeDefinition { constructors });
        Ok(())
    }

    fn constructor(&self, cursor: &mut Cursor) -> Result<Constructor, Refusal> {
        let count = cursor.count(0, FIELDS)?;
        let mut fields = Vec::with_capacity(count);
        for _ in 0..count {
            fields.push(self.field(cursor)?);
        }
        Ok(Constructor { fields })
    }

    fn field(&self, cursor: &mut Cursor) -> Result<Field, Refusal> {
        match cursor.byte()? {
            field::BOOL => Ok(Field::Bool),
            field::INT => Ok(Field::Int),
            field::OWN => Ok(Field::Own),
            field::NAMED => Ok(Field::Named {
                type_index: cursor.index(self.file.types.len())?,
                size: cursor.count(LEAST_SIZE, LARGEST_SIZE)?,
            }),
            _ => Err(Refusal::Code),
        }
    }

    fn function(&mut self, cursor: &mut Cursor) -> Result<(), Refusal> {
        let parameters = self.parameters(cursor)?;
        self.arities.push(parameters.len());
        let names = self.names(0);
        let scope = Scope::of_parameters(&parameters);
        let result = names.written_type(cursor, scope)?;
        let conditions = conditions(cursor, &names, scope)?;
        let measure = measure(cursor, scope)?;
        let body = names.expression(cursor, scope)?;
        cursor.end()?;
        self.file.functions.push(Function {
            parameters,
            result,
            conditions,
            measure,
            body,
        });
        Ok(())
    }

    fn parameters(&self, cursor: &mut Cursor) -> Result<Vec<PlainType>, Refusal> {
        let count = cursor.count(0, PARAMETERS)?;
        let mut parameters = Vec::with_capacity(count);
        for _ in 0..count {
            parameters.push(self.parameter(cursor)?);
        }
        Ok(parameters)
    }

    fn parameter(&self, cursor: &mut Cursor) -> Result<PlainType, Refusal> {
        match cursor.byte()? {
            types::BOOL => Ok(PlainType::Bool),
            types::INT => Ok(PlainType::Int),
            types::NAMED => Ok(PlainType::Named(cursor.index(self.file.types.len())?)),
            _ => Err(Refusal::Code),
        }
    }

    fn input(&mut self, cursor: &mut Cursor) -> Result<(), Refusal> {
        let declared = self.declared_type(cursor)?;
        let initial = self.names(0).expression(cursor, Scope::EMPTY)?;
        cursor.end()?;
        self.file.inputs.push(Input { declared, initial });
        Ok(())
    }

    fn node(&mut self, cursor: &mut Cursor) -> Result<(), Refusal> {
        let declared = self.declared_type(cursor)?;
        let initial = self.names(0).expression(cursor, Scope::EMPTY)?;
        let names = self.names(self.channels);
        let update = names.expression(cursor, Scope::EMPTY)?;
        cursor.end()?;
        self.file.nodes.push(Node {
            declared,
            initial,
            update,
        });
        Ok(())
    }

    fn declared_type(&self, cursor: &mut Cursor) -> Result<SizedType, Refusal> {
        match cursor.byte()? {
            types::BOOL => Ok(SizedType::Bool),
            types::INT => Ok(SizedType::Int),
            types::NAMED => Ok(SizedType::Named {
                type_index: cursor.index(self.file.types.len())?,
                size: cursor.count(LEAST_SIZE, LARGEST_SIZE)?,
            }),
            _ => Err(Refusal::Code),
        }
    }

    /// What an expression may name where `13` and `14` reach so many channels.
    fn names(&self, channels: usize) -> Names<'_> {
        Names {
            types: &self.file.types,
            arities: &self.arities,
            channels,
        }
    }
}

fn conditions(cursor: &mut Cursor, names: &Names, scope: Scope) -> Result<Vec<Condition>, Refusal> {
    let count = cursor.count(0, CONDITIONS)?;
    let mut conditions = Vec::with_capacity(count);
    for _ in 0..count {
        conditions.push(Condition {
            relation: relation(cursor)?,
            left: names.size(cursor, scope)?,
            right: names.size(cursor, scope)?,
        });
    }
    Ok(conditions)
}

fn relation(cursor: &mut Cursor) -> Result<Relation, Refusal> {
    match cursor.byte()? {
        relation::EQUAL => Ok(Relation::Equal),
        relation::LESS => Ok(Relation::Less),
        relation::AT_MOST => Ok(Relation::AtMost),
        _ => Err(Refusal::Code),
    }
}

fn measure(cursor: &mut Cursor, scope: Scope) -> Result<Vec<usize>, Refusal> {
    let count = cursor.count(0, MEASURES)?;
    let mut measure = Vec::with_capacity(count);
    for _ in 0..count {
        measure.push(cursor.index(scope.size_variables)?);
    }
    Ok(measure)
}
