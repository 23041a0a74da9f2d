//! Stands in for the published crate of this name: 000 names one type of it, for bounding boxes
//! that the oracle never asks for.

#[derive(Debug, Copy, Clone)]
pub struct AABB<T> {
    pub min_x: T,
    pub min_y: T,
    pub max_x: T,
    pub max_y: T,
}

impl<T> AABB<T> {
    pub fn new(min_x: T, min_y: T, max_x: T, max_y: T) -> Self {
        Self {
            min_x,
            min_y,
            max_x,
            max_y,
        }
    }
}
