//! As much of a JSON value as the original asks for.

#[derive(Clone, Debug)]
pub enum Value {
    Number(f64),
    Text(String),
    List(Vec<Value>),
    Object(Vec<(&'static str, Value)>),
}

impl Value {
    pub fn text(text: &str) -> Value {
        Value::Text(text.to_owned())
    }

    /// A vector as the original's `v3` reads it.
    pub fn vector(v: [f64; 3]) -> Value {
        let names = ["x", "y", "z"];
        let fields = names.into_iter().zip(v.map(Value::Number));
        Value::Object(fields.collect())
    }

    pub fn get(&self, key: &str) -> Option<&Value> {
        let Value::Object(fields) = self else {
            return None;
        };
        let field = fields.iter().find(|(name, _)| *name == key);
        field.map(|(_, value)| value)
    }

    pub fn pointer(&self, path: &str) -> Option<&Value> {
        let mut keys = path.split('/').skip(1);
        keys.try_fold(self, |value, key| value.get(key))
    }

    pub fn as_f64(&self) -> Option<f64> {
        match self {
            Value::Number(x) => Some(*x),
            _ => None,
        }
    }

    pub fn as_str(&self) -> Option<&str> {
        match self {
            Value::Text(text) => Some(text),
            _ => None,
        }
    }

    pub fn as_array(&self) -> Option<&Vec<Value>> {
        match self {
            Value::List(values) => Some(values),
            _ => None,
        }
    }
}

/// A value that cannot be read as what was asked for.
#[derive(Debug)]
pub struct Unreadable;

pub trait FromValue: Sized {
    fn from_value(value: &Value) -> Option<Self>;
}

pub fn from_value<T: FromValue>(value: Value) -> Result<T, Unreadable> {
    T::from_value(&value).ok_or(Unreadable)
}
