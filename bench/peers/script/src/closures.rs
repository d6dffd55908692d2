//! The closures that a line can name. Each notes its calls.

use crate::pairs::{note, number, Key, Value};

/// Which entries a retain keeps.
#[derive(Clone, Copy)]
pub enum Keep {
    All,
    None,
    Even,
    Odd,
    Below(usize),
    Above(usize),
}

impl Keep {
    pub fn read(words: &[&str]) -> Option<Keep> {
        match *words {
            ["all"] => Some(Keep::All),
            ["none"] => Some(Keep::None),
            ["even"] => Some(Keep::Even),
            ["odd"] => Some(Keep::Odd),
            ["below", most] => Some(Keep::Below(number(most)?)),
            ["above", least] => Some(Keep::Above(number(least)?)),
            _ => None,
        }
    }

    pub fn keeps(self, key: &Key, value: &Value) -> bool {
        note("keep", &key.text);
        match self {
            Keep::All => true,
            Keep::None => false,
            Keep::Even => value.number() % 2 == 0,
            Keep::Odd => value.number() % 2 == 1,
            Keep::Below(most) => value.number() < most,
            Keep::Above(least) => value.number() > least,
        }
    }
}

/// What the closures of a put-or-modify do.
#[derive(Clone, Copy, PartialEq)]
pub enum Form {
    Store,
    Add,
    Length,
    Fails(Option<usize>),
    WriteFails(Option<usize>),
    OddFails,
}

impl Form {
    pub fn read(words: &[&str]) -> Option<Form> {
        match *words {
            [] | ["store"] => Some(Form::Store),
            ["add"] => Some(Form::Add),
            ["length"] => Some(Form::Length),
            ["fails"] => Some(Form::Fails(None)),
            ["fails", error] => Some(Form::Fails(Some(number(error)?))),
            ["write-fails"] => Some(Form::WriteFails(None)),
            ["write-fails", error] => Some(Form::WriteFails(Some(number(error)?))),
            ["odd-fails"] => Some(Form::OddFails),
            _ => None,
        }
    }

    /// The error with which the closures fail at these data, where they do: a number, where one is named.
    fn failed(self, data: &Value) -> Option<Option<usize>> {
        match self {
            Form::Fails(error) | Form::WriteFails(error) => Some(error),
            Form::OddFails if data.number() % 2 == 1 => Some(Some(data.number())),
            _ => None,
        }
    }

    /// The value of a new key.
    pub fn put(self, key: &Key, mut data: Value) -> Result<Value, Option<usize>> {
        note("put_op", &key.text);
        if let Some(error) = self.failed(&data) {
            return Err(error);
        }
        if self == Form::Length {
            data.text = (data.number() + key.text.len()).to_string();
        }
        Ok(data)
    }

    /// What becomes of the value of a held one.
    pub fn modify(self, key: &Key, held: &mut Value, data: Value) -> Result<(), Option<usize>> {
        note("modify_op", &key.text);
        let failed = self.failed(&data);
        if failed.is_none() || matches!(self, Form::WriteFails(_)) {
            held.text = self.changed(key, held.number(), &data);
        }
        failed.map_or(Ok(()), Err)
    }

    fn changed(self, key: &Key, old: usize, data: &Value) -> String {
        match self {
            Form::Add => (old + data.number()).to_string(),
            Form::Length if old == key.text.len() => (old * 2 + data.number()).to_string(),
            Form::Length => (old / 2 + data.number()).to_string(),
            _ => data.text.clone(),
        }
    }
}
