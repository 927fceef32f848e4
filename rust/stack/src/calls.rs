//! Every function of `include/plan.h`, with what it takes and how it hands its answer back.

use plan::{Columns, Record};

use crate::inputs::Input;
use crate::painted::{Arguments, Function, Painted};

/// What a call takes.
#[derive(Clone, Copy, Debug, PartialEq, Eq)]
pub enum Part {
    /// The records of a list.
    List,
    /// One record.
    Single,
    /// The three columns of the table.
    Table,
    /// The three columns of the insertions.
    Insertions,
    /// Three lent columns.
    NewTable,
    /// One lent column.
    NewColumn,
    /// Two lent columns.
    NewPair,
    /// The column of sizes.
    Sizes,
    /// A row.
    Row,
    /// A candidate of a child walk, and its end.
    Walk,
}

impl Part {
    /// How many parameters it is in C.
    pub fn parameters(self) -> usize {
        match self {
            Part::Table | Part::Insertions | Part::NewTable => 6,
            Part::NewPair => 4,
            Part::List | Part::NewColumn | Part::Sizes | Part::Walk => 2,
            Part::Single | Part::Row => 1,
        }
    }
}

/// How an answer is handed back.
#[derive(Clone, Copy, Debug, PartialEq, Eq)]
pub enum Answer {
    /// `plan_answer`, in two registers.
    Short,
    /// A larger struct, where a hidden first argument says.
    Long,
}

/// A function of `include/plan.h`.
#[derive(Clone, Copy, Debug)]
pub struct Call {
    /// Its name.
    pub name: &'static str,
    /// What it takes, in the order of its parameters.
    pub takes: &'static [Part],
    /// How it hands its answer back.
    pub answer: Answer,
    function: Function,
}

macro_rules! calls {
    ($($name:ident($($part:ident),*) -> $answer:ident;)*) => {
        extern "C" {
            $(fn $name();)*
        }

        /// All of them.
        pub const CALLS: &[Call] = &[$(Call {
            name: stringify!($name),
            takes: &[$(Part::$part),*],
            answer: Answer::$answer,
            function: $name,
        }),*];
    };
}

calls! {
    plan_soundness(Table) -> Short;
    plan_parent(Table, Row) -> Long;
    plan_first_child(Table, Row) -> Long;
    plan_next_sibling(Table, Row) -> Long;
    plan_subtree(Table, Row) -> Long;
    plan_children(Table, Row) -> Long;
    plan_child(Sizes, Walk) -> Long;
    plan_bulk(List, Table, Insertions, NewTable) -> Short;
    plan_single(Single, Table, Insertions, NewTable) -> Short;
    plan_old_to_new(List, Table, Insertions, Row) -> Long;
    plan_new_to_old(List, Table, Insertions, Row) -> Long;
    plan_map_old(List, Table, Insertions, NewColumn) -> Short;
    plan_map_new(List, Table, Insertions, NewPair) -> Short;
}

/// What is asked of an input: a record singly, and a row.
#[derive(Clone, Copy, Debug)]
pub struct Asked {
    /// For the call that takes one record.
    pub record: Record,
    /// For the calls that take a row.
    pub row: u32,
}

impl Call {
    /// Makes the call on the stack: the number that it answers, and the bytes that it used.
    pub fn make(
        &self,
        stack: &mut Painted,
        input: &Input,
        asked: Asked,
        lent: &mut Columns,
    ) -> (u32, usize) {
        let Columns { dist, size, value } = lent;
        let mut new = [dist, size, value].into_iter();
        let mut long = [0_u64; 8];
        let mut arguments = Arguments::default();
        if self.answer == Answer::Long {
            arguments.word(long.as_mut_ptr() as u64);
        }
        for part in self.takes {
            match part {
                Part::List => arguments.read(&input.records),
                Part::Single => arguments.record(asked.record),
                Part::Table => table(&mut arguments, &input.table),
                Part::Insertions => table(&mut arguments, &input.insertions),
                Part::NewTable => new.by_ref().for_each(|column| arguments.write(column)),
                Part::NewPair => new.by_ref().take(2).for_each(|column| arguments.write(column)),
                Part::NewColumn => new.by_ref().take(1).for_each(|column| arguments.write(column)),
                Part::Sizes => arguments.read(&input.table.size),
                Part::Row => arguments.word(asked.row.into()),
                Part::Walk => {
                    arguments.word(asked.row.into());
                    arguments.word(input.table.size.len() as u64);
                }
            }
        }
        // Why it is sound: the arguments are those of the list above, which a test holds against
        // `include/plan.h`; what they point to is borrowed until the call is over; the library does
        // not unwind; and it has as much stack here as a thread usually has.
        let called = unsafe { stack.call(self.function, arguments) };
        let first = match self.answer {
            Answer::Short => called.result,
            Answer::Long => long[0],
        };
        (first as u32, called.bytes)
    }
}

fn table<'a>(arguments: &mut Arguments<'a>, table: &'a Columns) {
    arguments.read(&table.dist);
    arguments.read(&table.size);
    arguments.read(&table.value);
}
