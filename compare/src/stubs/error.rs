//! Stands in for `crate::error`.

pub const E_USAGE: &str = "E_USAGE";

pub struct ApiError;

impl ApiError {
    pub fn new(_code: &str, _message: String) -> ApiError {
        ApiError
    }

    pub fn with_hint(self, _hint: &str) -> ApiError {
        self
    }

    pub fn to_json(&self) -> serde_json::Value {
        serde_json::Value::Null
    }
}
