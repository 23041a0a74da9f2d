//! Polylines, as 000 imports them.

use crate::core::math::Vector2;
use crate::core::traits::Real;
use static_aabb2d_index::AABB;

#[cfg(with_000)]
pub mod internal {
    include!(concat!(env!("OUT_DIR"), "/internal.rs"));
}

#[derive(Debug, Copy, Clone)]
pub struct PlineVertex<T = f64> {
    pub x: T,
    pub y: T,
    pub bulge: T,
}

impl<T: Real> PlineVertex<T> {
    pub fn new(x: T, y: T, bulge: T) -> Self {
        Self { x, y, bulge }
    }

    pub fn from_vector2(point: Vector2<T>, bulge: T) -> Self {
        Self::new(point.x, point.y, bulge)
    }

    pub fn pos(self) -> Vector2<T> {
        Vector2::new(self.x, self.y)
    }

    pub fn with_bulge(self, bulge: T) -> Self {
        Self { bulge, ..self }
    }

    /// 01 §3 Zero bulge.
    pub fn bulge_is_zero(self) -> bool {
        self.bulge.abs() < T::fuzzy_epsilon()
    }

    pub fn bulge_is_neg(self) -> bool {
        self.bulge < T::zero()
    }
}

/// 01 §3 Arc: radius and centre of the arc from `v1` to `v2`.
pub fn seg_arc_radius_and_center<T: Real>(
    v1: PlineVertex<T>,
    v2: PlineVertex<T>,
) -> (T, Vector2<T>) {
    let chord = v2.pos() - v1.pos();
    let l = chord.length();
    let (b, b_abs) = (v1.bulge, v1.bulge.abs());
    let r = l * (b * b + T::one()) / (T::four() * b_abs);
    let m = r - b_abs * l / T::two();
    let middle = v1.pos() + chord.scale(T::from(0.5));
    let aside = chord.perp().scale(m / l);
    let center = if v1.bulge_is_neg() {
        middle - aside
    } else {
        middle + aside
    };
    (r, center)
}

/// 000's bounding boxes call this; they are left to others (01 §1).
pub fn line_seg_bounding_box<T: Real>(_start: Vector2<T>, _end: Vector2<T>) -> AABB<T> {
    unreachable!("no bounding box is asked for")
}

pub trait PlineSource {
    type Num: Real;

    fn vertex_count(&self) -> usize;
    fn is_closed(&self) -> bool;
    fn at(&self, index: usize) -> PlineVertex<Self::Num>;

    fn is_empty(&self) -> bool {
        self.vertex_count() == 0
    }

    fn last(&self) -> Option<PlineVertex<Self::Num>> {
        self.vertex_count().checked_sub(1).map(|i| self.at(i))
    }

    /// 01 §1: v−1 open, v closed, 0 when v < 2.
    fn segment_count(&self) -> usize {
        match self.vertex_count() {
            0 | 1 => 0,
            v if self.is_closed() => v,
            v => v - 1,
        }
    }

    fn iter_segments(
        &self,
    ) -> impl Iterator<Item = (PlineVertex<Self::Num>, PlineVertex<Self::Num>)> {
        let v = self.vertex_count();
        (0..self.segment_count()).map(move |i| {
            let next = if i + 1 < v { i + 1 } else { 0 };
            (self.at(i), self.at(next))
        })
    }
}

pub trait PlineSourceMut: PlineSource {
    fn set_last(&mut self, vertex: PlineVertex<Self::Num>);
    fn add_vertex(&mut self, vertex: PlineVertex<Self::Num>);
    fn remove_last(&mut self);
    fn set_is_closed(&mut self, is_closed: bool);
    fn clear(&mut self);
}

pub trait PlineCreation: PlineSourceMut + Sized {
    fn with_capacity(capacity: usize, is_closed: bool) -> Self;

    fn empty() -> Self {
        Self::with_capacity(0, false)
    }

    fn create_from<P>(source: &P) -> Self
    where
        P: PlineSource<Num = Self::Num> + ?Sized,
    {
        let mut copy = Self::with_capacity(source.vertex_count(), source.is_closed());
        for i in 0..source.vertex_count() {
            copy.add_vertex(source.at(i));
        }
        copy
    }
}

#[derive(Debug, Clone)]
pub struct Polyline<T = f64> {
    pub vertices: Vec<PlineVertex<T>>,
    pub is_closed: bool,
}

impl<T: Real> PlineSource for Polyline<T> {
    type Num = T;

    fn vertex_count(&self) -> usize {
        self.vertices.len()
    }

    fn is_closed(&self) -> bool {
        self.is_closed
    }

    fn at(&self, index: usize) -> PlineVertex<T> {
        self.vertices[index]
    }
}

impl<T: Real> PlineSourceMut for Polyline<T> {
    fn set_last(&mut self, vertex: PlineVertex<T>) {
        *self.vertices.last_mut().expect("a vertex to set") = vertex;
    }

    fn add_vertex(&mut self, vertex: PlineVertex<T>) {
        self.vertices.push(vertex);
    }

    fn remove_last(&mut self) {
        self.vertices.pop();
    }

    fn set_is_closed(&mut self, is_closed: bool) {
        self.is_closed = is_closed;
    }

    /// 01 §2: what is left of a lone vertex is empty and open.
    fn clear(&mut self) {
        *self = Self::empty();
    }
}

impl<T: Real> PlineCreation for Polyline<T> {
    fn with_capacity(capacity: usize, is_closed: bool) -> Self {
        Self {
            vertices: Vec::with_capacity(capacity),
            is_closed,
        }
    }
}
