use std::collections::BTreeMap;

use super::json::Value;

/// The rows of a model, by arena and id.
#[derive(Default)]
pub struct Context {
    arenas: BTreeMap<&'static str, BTreeMap<String, Value>>,
}

impl Context {
    pub fn insert(&mut self, arena: &'static str, id: String, row: Value) {
        self.arenas.entry(arena).or_default().insert(id, row);
    }

    pub fn row(&self, arena: &str, id: &str) -> Option<&Value> {
        self.arenas.get(arena)?.get(id)
    }
}
