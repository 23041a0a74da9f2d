//! Inner functions of the proved code, called through the archive of the crate `layers`.

use crate::core::math::Vector2;
use crate::polyline::PlineVertex;

unsafe extern "C" {
    pub safe fn layers_sqrt(x: f64) -> f64;
    pub safe fn layers_atan(x: f64) -> f64;
    pub safe fn layers_tan(x: f64) -> f64;
    safe fn layers_angle(cx: f64, cy: f64, px: f64, py: f64) -> f64;
    safe fn layers_line_line(
        ax: f64,
        ay: f64,
        bx: f64,
        by: f64,
        cx: f64,
        cy: f64,
        dx: f64,
        dy: f64,
        eps: f64,
        out: &mut [f64; 4],
    ) -> u32;
    safe fn layers_line_circle(
        ax: f64,
        ay: f64,
        bx: f64,
        by: f64,
        radius: f64,
        cx: f64,
        cy: f64,
        eps: f64,
        out: &mut [f64; 4],
    ) -> u32;
    safe fn layers_circle_circle(
        radius1: f64,
        ax: f64,
        ay: f64,
        radius2: f64,
        bx: f64,
        by: f64,
        eps: f64,
        out: &mut [f64; 4],
    ) -> u32;
    safe fn layers_join(source: &[f64; 12], offset: f64, eps: f64, out: &mut [f64; 7]) -> u32;
}

/// The kind of an intersection, in the order of the enum, and its numbers, zeros after the last.
pub type Told = (u32, [f64; 4]);

/// 100 times the precise cause of a join, ten times the number of the current side's rule, and that of
/// the next one's; then both points, each with its parameter, and the connector's bulge.
pub type JoinTold = (u32, [f64; 7]);

/// What stands in a number before a call.
const UNSET: f64 = -7.25;

/// What stands in the numbers before a call.
const BEFORE: [f64; 4] = [UNSET; 4];

pub fn angle(center: Vector2, point: Vector2) -> f64 {
    layers_angle(center.x, center.y, point.x, point.y)
}

pub fn line_line(a: Vector2, b: Vector2, c: Vector2, d: Vector2, eps: f64) -> Told {
    let mut out = BEFORE;
    let kind = layers_line_line(a.x, a.y, b.x, b.y, c.x, c.y, d.x, d.y, eps, &mut out);
    (kind, out)
}

pub fn line_circle(a: Vector2, b: Vector2, radius: f64, c: Vector2, eps: f64) -> Told {
    let mut out = BEFORE;
    let kind = layers_line_circle(a.x, a.y, b.x, b.y, radius, c.x, c.y, eps, &mut out);
    (kind, out)
}

pub fn circle_circle(radius1: f64, a: Vector2, radius2: f64, b: Vector2, eps: f64) -> Told {
    let mut out = BEFORE;
    let kind = layers_circle_circle(radius1, a.x, a.y, radius2, b.x, b.y, eps, &mut out);
    (kind, out)
}

/// The join at the third of four vertices, made after that at the second. Where the second is the first
/// of a walk, the first is the same.
pub fn join(vertices: [PlineVertex; 4], offset: f64, eps: f64) -> JoinTold {
    let mut source = [0.0; 12];
    for (place, v) in source.chunks_exact_mut(3).zip(vertices) {
        place.copy_from_slice(&[v.x, v.y, v.bulge]);
    }
    let mut out = [UNSET; 7];
    let told = layers_join(&source, offset, eps, &mut out);
    (told, out)
}
