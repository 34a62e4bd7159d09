//! Numbers as text.
pub struct Buffer {
    text: String,
}
pub trait Integer: std::fmt::Display {}
impl Integer for u8 {}
impl Integer for u16 {}
impl Integer for u32 {}
impl Integer for u64 {}
impl Integer for usize {}
impl Buffer {
    pub fn new() -> Buffer {
        Buffer {
            text: String::new(),
        }
    }
    pub fn format<I: Integer>(&mut self, i: I) -> &str {
        self.text = i.to_string();
        &self.text
    }
}
