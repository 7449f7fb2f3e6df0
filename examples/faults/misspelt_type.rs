//! A type that nothing declares.
struct Person {
    name: Strng,
    age: u8,
}
