//! A struct that is not closed.
struct Person {
    name: String,

struct Pet {
    name: String,
}
