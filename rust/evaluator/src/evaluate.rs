//! Evaluation with bounded memory: the rules of figure 4, with document 01's
//! premise on sizes (refusals 20 to 23) and document 02's `06` and `07`.

use crate::answer::Refusal;
use crate::limits::LARGEST_SIZE;
use crate::operators::{self, Scalar};
use crate::state::{Cell, State, Tag};
use crate::syntax::{
    Call, Case, Construction, Expression, File, Fit, If, Let, Operation, SizedType,
};
use crate::value::{construction_size, fields_within};

type Evaluated = Result<u32, Refusal>;

/// What is left of the environment (s) and of the call stack (u).
#[derive(Clone, Copy)]
pub struct Room {
    pub slots: u32,
    pub calls: u32,
}

impl Room {
    /// Takes slots: refusal 21 where too few are free.
    fn take_slots(self, count: usize) -> Result<Room, Refusal> {
        let left = self.slots.checked_sub(count as u32);
        let slots = left.ok_or(Refusal::EnvironmentSpent)?;
        Ok(Room { slots, ..self })
    }

    /// Takes a call: refusal 22 where none is left.
    fn take_call(self) -> Result<Room, Refusal> {
        let calls = self.calls.checked_sub(1).ok_or(Refusal::StackSpent)?;
        Ok(Room { calls, ..self })
    }
}

/// One iteration's evaluation: the heap grows, nothing in it changes.
pub struct Evaluation<'a> {
    pub file: &'a File,
    pub heap: State<Vec<u32>>,
    /// The cells of the channels as they stand.
    pub current: Vec<u32>,
    /// The cells of the channels from before the line.
    previous: Vec<u32>,
}

impl<'a> Evaluation<'a> {
    /// Begins on a copy of a valid state, so that a refusal leaves the words.
    pub fn new(file: &'a File, words: &[u32]) -> Evaluation<'a> {
        let heap = State::new(words.to_vec());
        let channels = heap.channels()[..file.channel_count()].to_vec();
        Evaluation {
            file,
            heap,
            current: channels.clone(),
            previous: channels,
        }
    }

    /// The state with the channels as they stand, its cells not yet slid.
    pub fn into_state(mut self) -> State<Vec<u32>> {
        for (channel, cell) in self.current.iter().enumerate() {
            self.heap.set_channel(channel, *cell);
        }
        self.heap
    }

    /// A node's new value, which is not above its declared size.
    pub fn update(&mut self, room: Room, node: usize) -> Evaluated {
        let node = &self.file.nodes[node];
        let value = self.evaluate(&mut Vec::new(), room, &node.update)?;
        match node.declared {
            SizedType::Named { size, .. } if self.content(value) > size => {
                Err(Refusal::ValueTooLarge)
            }
            _ => Ok(value),
        }
    }

    /// A cell's second word: a Bool, the bits of an Int, or a size.
    fn content(&self, at: u32) -> usize {
        self.heap.cell(at).content as usize
    }

    /// The cell of an expression's value, under an environment of cells.
    fn evaluate(
        &mut self,
        environment: &mut Vec<u32>,
        room: Room,
        expression: &Expression,
    ) -> Evaluated {
        match expression {
            Expression::Bool(value) => self.make(Cell::bool(*value)),
            Expression::Int(value) => self.make(Cell::int(*value)),
            Expression::Variable(at) => Ok(environment[*at]),
            Expression::Channel(at) => Ok(self.current[*at]),
            Expression::Previous(at) => Ok(self.previous[*at]),
            Expression::Let(parts) => self.let_in(environment, room, parts),
            Expression::If(parts) => self.if_then(environment, room, parts),
            Expression::Operation(parts) => self.operation(environment, room, parts),
            Expression::Call(parts) => self.call(environment, room, parts),
            Expression::Construction(parts) => self.construction(environment, room, parts),
            Expression::Case(parts) => self.case(environment, room, parts),
            Expression::Adjust(parts) => self.evaluate(environment, room, &parts.subject),
            Expression::Fit(parts) => self.fit(environment, room, parts),
        }
    }

    /// Makes a cell: refusal 20 where none is free.
    fn make(&mut self, cell: Cell) -> Evaluated {
        self.heap.make(cell).ok_or(Refusal::HeapSpent)
    }

    fn several(
        &mut self,
        environment: &mut Vec<u32>,
        room: Room,
        parts: &[Expression],
    ) -> Result<Vec<u32>, Refusal> {
        let mut cells = Vec::with_capacity(parts.len());
        for part in parts {
            cells.push(self.evaluate(environment, room, part)?);
        }
        Ok(cells)
    }

    /// Binds cells to the next variables and evaluates the body.
    fn under(
        &mut self,
        environment: &mut Vec<u32>,
        room: Room,
        bound: &[u32],
        body: &Expression,
    ) -> Evaluated {
        let room = room.take_slots(bound.len())?;
        let outer = environment.len();
        environment.extend_from_slice(bound);
        let value = self.evaluate(environment, room, body);
        environment.truncate(outer);
        value
    }

    fn let_in(&mut self, environment: &mut Vec<u32>, room: Room, parts: &Let) -> Evaluated {
        let bound = self.evaluate(environment, room, &parts.bound)?;
        self.under(environment, room, &[bound], &parts.body)
    }

    fn if_then(&mut self, environment: &mut Vec<u32>, room: Room, parts: &If) -> Evaluated {
        let condition = self.evaluate(environment, room, &parts.condition)?;
        match self.content(condition) != 0 {
            true => self.evaluate(environment, room, &parts.then_arm),
            false => self.evaluate(environment, room, &parts.else_arm),
        }
    }

    /// The Int of an expression, or its Bool as 0 or 1.
    fn scalar(
        &mut self,
        environment: &mut Vec<u32>,
        room: Room,
        expression: &Expression,
    ) -> Result<i32, Refusal> {
        let at = self.evaluate(environment, room, expression)?;
        Ok(self.heap.cell(at).content as i32)
    }

    /// A new cell after what was evaluated, also where the left side decides.
    fn operation(
        &mut self,
        environment: &mut Vec<u32>,
        room: Room,
        parts: &Operation,
    ) -> Evaluated {
        let left = self.scalar(environment, room, &parts.left)?;
        if let Some(value) = operators::decided(parts.operator, left) {
            return self.make(Cell::bool(value));
        }
        let right = self.scalar(environment, room, &parts.right)?;
        self.make(match operators::apply(parts.operator, left, right) {
            Scalar::Bool(value) => Cell::bool(value),
            Scalar::Int(value) => Cell::int(value),
        })
    }

    /// A call needs its slots before its arguments and its stack after them.
    fn call(&mut self, environment: &mut Vec<u32>, room: Room, parts: &Call) -> Evaluated {
        let room = room.take_slots(parts.arguments.len())?;
        let mut cells = self.several(environment, room, &parts.arguments)?;
        let room = room.take_call()?;
        let file = self.file;
        self.evaluate(&mut cells, room, &file.functions[parts.function].body)
    }

    /// A construction's size comes before its cell.
    fn construction(
        &mut self,
        environment: &mut Vec<u32>,
        room: Room,
        parts: &Construction,
    ) -> Evaluated {
        let cells = self.several(environment, room, &parts.fields)?;
        let sizes: Vec<usize> = cells.iter().map(|at| self.content(*at)).collect();
        let tag = Tag::Construction {
            type_index: parts.type_index,
            constructor: parts.constructor,
        };
        let known = self.file.constructor(parts.type_index, parts.constructor);
        let size = construction_size(known, &sizes);
        if size > LARGEST_SIZE || !fields_within(known, &sizes) {
            return Err(Refusal::ValueTooLarge);
        }
        self.make(Cell::construction(tag, size, &cells))
    }

    fn case(&mut self, environment: &mut Vec<u32>, room: Room, parts: &Case) -> Evaluated {
        let scrutinee = self.evaluate(environment, room, &parts.scrutinee)?;
        let cell = self.heap.cell(scrutinee);
        let (constructor, count) = self.chosen(&cell);
        let branch = &parts.branches[constructor];
        self.under(environment, room, &cell.fields[..count], branch)
    }

    /// A construction's constructor and field count; plain types have been
    /// checked, so a scrutinee is a construction.
    fn chosen(&self, cell: &Cell) -> (usize, usize) {
        match Tag::of_word(cell.tag, self.file) {
            Some(Tag::Construction {
                type_index,
                constructor,
            }) => {
                let known = self.file.constructor(type_index, constructor);
                (constructor, known.fields.len())
            }
            _ => unreachable!("a scrutinee of a checked file is a construction"),
        }
    }

    fn fit(&mut self, environment: &mut Vec<u32>, room: Room, parts: &Fit) -> Evaluated {
        let subject = self.evaluate(environment, room, &parts.subject)?;
        match self.content(subject) <= parts.size {
            true => self.under(environment, room, &[subject], &parts.fits),
            false => self.evaluate(environment, room, &parts.otherwise),
        }
    }
}
