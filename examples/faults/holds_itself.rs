//! A tree that would be of no size.
struct Tree {
    value: i64,
    left: Option<Tree>,
    right: Option<Tree>,
}
