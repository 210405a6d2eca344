pub struct Buffer { s: std::string::String }
impl Buffer { pub fn new() -> Self { Buffer { s: std::string::String::new() } } pub fn format<T: std::fmt::Display>(&mut self, x: T) -> &str { self.s = format!("{x}"); &self.s } }
