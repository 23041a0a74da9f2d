//! How outer corners are drawn.

use crate::segments;

/// How an outer corner is drawn.
#[derive(Clone, Copy, Debug, Default, PartialEq)]
#[non_exhaustive]
pub enum Corners {
    /// By an arc.
    #[default]
    Round,
    /// Between two lines by two straight connectors: to the point where both offset lines, prolonged,
    /// meet, and on from it. A point may be at most `ratio` times the offset's size from the source's
    /// vertex; `ratio` lies in 1 to 10, limits included.
    ///
    /// Two lines at the angle a to each other are pointed where 1 / sin(a / 2) is at most `ratio`: a
    /// right angle with 1.4143, angles wider than 60 degrees with 2, those from 11.5 degrees on with
    /// 10. Every other outer corner is round: one whose point is farther off, one with an arc, one
    /// where the drawing turns back on itself, and one whose offset lines have a cross product below
    /// the tolerance in size, as nearly parallel lines and short ones do.
    Pointed { ratio: f64 },
}

impl Corners {
    /// The places that each buffer needs for a source of so many vertices: two for each segment, and
    /// three where corners are pointed.
    ///
    /// ```
    /// use blidrosk::Corners;
    ///
    /// assert_eq!(Corners::Round.room(4, true), 8);
    /// assert_eq!(Corners::Pointed { ratio: 2.0 }.room(4, true), 12);
    /// ```
    pub const fn room(self, vertices: usize, closed: bool) -> usize {
        segments(vertices, closed).saturating_mul(self.places())
    }

    /// The places that each buffer of [`Pen::draw_into`](crate::Pen::draw_into) needs for so many
    /// vertices given: two for each, and three where corners are pointed.
    ///
    /// ```
    /// use blidrosk::Corners;
    ///
    /// assert_eq!(Corners::Round.draw_room(1), 2);
    /// assert_eq!(Corners::Pointed { ratio: 2.0 }.draw_room(4), 12);
    /// ```
    pub const fn draw_room(self, vertices: usize) -> usize {
        vertices.saturating_mul(self.places())
    }

    const fn places(self) -> usize {
        match self {
            Corners::Round => 2,
            Corners::Pointed { .. } => 3,
        }
    }
}
