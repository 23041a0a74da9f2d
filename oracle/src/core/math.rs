//! The arithmetic of 01 section 3, worked left to right as written there, with no fused steps.

use super::traits::Real;
use std::f64::consts::{FRAC_PI_2, PI, TAU};
use std::ops::{Add, Neg, Sub};

#[derive(Debug, Copy, Clone)]
pub struct Vector2<T = f64> {
    pub x: T,
    pub y: T,
}

impl<T: Real> Vector2<T> {
    pub fn new(x: T, y: T) -> Self {
        Self { x, y }
    }

    pub fn scale(self, factor: T) -> Self {
        Self::new(self.x * factor, self.y * factor)
    }

    pub fn dot(self, other: Self) -> T {
        self.x * other.x + self.y * other.y
    }

    /// 01 §3: × on vectors.
    pub fn perp_dot(self, other: Self) -> T {
        self.x * other.y - self.y * other.x
    }

    pub fn perp(self) -> Self {
        Self::new(-self.y, self.x)
    }

    pub fn length_squared(self) -> T {
        self.dot(self)
    }

    pub fn length(self) -> T {
        self.length_squared().sqrt()
    }

    pub fn normalize(self) -> Self {
        let length = self.length();
        Self::new(self.x / length, self.y / length)
    }

    pub fn unit_perp(self) -> Self {
        self.perp().normalize()
    }

    /// 01 §3 Within e: points in x and in y.
    pub fn fuzzy_eq_eps(self, other: Self, eps: T) -> bool {
        self.x.fuzzy_eq_eps(other.x, eps) && self.y.fuzzy_eq_eps(other.y, eps)
    }
}

impl<T: Real> Add for Vector2<T> {
    type Output = Self;

    fn add(self, other: Self) -> Self {
        Self::new(self.x + other.x, self.y + other.y)
    }
}

impl<T: Real> Sub for Vector2<T> {
    type Output = Self;

    fn sub(self, other: Self) -> Self {
        Self::new(self.x - other.x, self.y - other.y)
    }
}

impl<T: Real> Neg for Vector2<T> {
    type Output = Self;

    fn neg(self) -> Self {
        Self::new(-self.x, -self.y)
    }
}

pub fn dist_squared<T: Real>(p: Vector2<T>, q: Vector2<T>) -> T {
    (p - q).length_squared()
}

/// 01 §3 Point at t.
pub fn point_from_parametric<T: Real>(p: Vector2<T>, q: Vector2<T>, t: T) -> Vector2<T> {
    p + (q - p).scale(t)
}

/// 01 §3 Parameter of a point: by y where the line is upright within ε, else by x.
pub fn parametric_from_point<T: Real>(p: Vector2<T>, q: Vector2<T>, c: Vector2<T>, eps: T) -> T {
    if p.x.fuzzy_eq_eps(q.x, eps) {
        (c.y - p.y) / (q.y - p.y)
    } else {
        (c.x - p.x) / (q.x - p.x)
    }
}

#[derive(Debug, Copy, Clone)]
pub enum LineLineIntr<T = f64> {
    NoIntersect,
    TrueIntersect { seg1_t: T, seg2_t: T },
    FalseIntersect { seg1_t: T, seg2_t: T },
    Overlapping { seg2_t0: T, seg2_t1: T },
}

/// 01 §3 Lines, of p0 to p1 and q0 to q1.
pub fn line_line_intr<T: Real>(
    p0: Vector2<T>,
    p1: Vector2<T>,
    q0: Vector2<T>,
    q1: Vector2<T>,
    eps: T,
) -> LineLineIntr<T> {
    let (v, u, w) = (p1 - p0, q1 - q0, p0 - q0);
    let d = v.perp_dot(u);
    if d.abs() >= eps {
        let (t, s) = (u.perp_dot(w) / d, v.perp_dot(w) / d);
        let inside = |x: T| x > -eps && x < T::one() + eps;
        return if inside(t) && inside(s) {
            LineLineIntr::TrueIntersect {
                seg1_t: t,
                seg2_t: s,
            }
        } else {
            LineLineIntr::FalseIntersect {
                seg1_t: t,
                seg2_t: s,
            }
        };
    }
    let collinear = v.perp_dot(w).abs() < eps && u.perp_dot(w).abs() < eps;
    let along = |point: Vector2<T>| (point - p0).dot(v) / v.dot(v);
    let (a, b) = (along(q0), along(q1));
    let (zero, one) = (T::zero(), T::one());
    if collinear && (a <= one || b <= one) && (a >= zero || b >= zero) {
        LineLineIntr::Overlapping {
            seg2_t0: a,
            seg2_t1: b,
        }
    } else {
        LineLineIntr::NoIntersect
    }
}

#[derive(Debug, Copy, Clone)]
pub enum LineCircleIntr<T = f64> {
    NoIntersect,
    TangentIntersect { t0: T },
    TwoIntersects { t0: T, t1: T },
}

/// 01 §3 Line and circle, of p0 to p1.
pub fn line_circle_intr<T: Real>(
    p0: Vector2<T>,
    p1: Vector2<T>,
    radius: T,
    center: Vector2<T>,
    eps: T,
) -> LineCircleIntr<T> {
    let (v, w) = (p1 - p0, p0 - center);
    let l = v.dot(v).sqrt();
    let h = v.perp_dot(w).abs() / l;
    let t = -w.dot(v) / v.dot(v);
    if h > radius + eps {
        return LineCircleIntr::NoIntersect;
    }
    if (h - radius).abs() <= eps {
        return LineCircleIntr::TangentIntersect { t0: t };
    }
    let s = (radius * radius - h * h).sqrt() / l;
    LineCircleIntr::TwoIntersects {
        t0: t - s,
        t1: t + s,
    }
}

#[derive(Debug, Copy, Clone)]
pub enum CircleCircleIntr<T = f64> {
    NoIntersect,
    TangentIntersect {
        point: Vector2<T>,
    },
    TwoIntersects {
        point1: Vector2<T>,
        point2: Vector2<T>,
    },
    Overlapping,
}

/// 01 §3 Circles.
pub fn circle_circle_intr<T: Real>(
    r1: T,
    c1: Vector2<T>,
    r2: T,
    c2: Vector2<T>,
    eps: T,
) -> CircleCircleIntr<T> {
    let between = c2 - c1;
    let d = between.length();
    if d < eps {
        return if r1.fuzzy_eq_eps(r2, eps) {
            CircleCircleIntr::Overlapping
        } else {
            CircleCircleIntr::NoIntersect
        };
    }
    let apart = (r1 - r2).abs();
    if d > r1 + r2 + eps || d + eps < apart {
        return CircleCircleIntr::NoIntersect;
    }
    let a = (r1 * r1 - r2 * r2 + d * d) / (T::two() * d);
    let middle = c1 + between.scale(a / d);
    let k = r1 * r1 - a * a;
    if d.fuzzy_eq_eps(r1 + r2, eps) || d.fuzzy_eq_eps(apart, eps) || k <= T::zero() {
        return CircleCircleIntr::TangentIntersect { point: middle };
    }
    let aside = between.perp().scale(k.sqrt() / d);
    CircleCircleIntr::TwoIntersects {
        point1: middle + aside,
        point2: middle - aside,
    }
}

/// (−1)^k/(2k+1). The divisors are exact, so each quotient is the nearest double.
pub const ATAN: [f64; 9] = [
    1.0,
    -1.0 / 3.0,
    1.0 / 5.0,
    -1.0 / 7.0,
    1.0 / 9.0,
    -1.0 / 11.0,
    1.0 / 13.0,
    -1.0 / 15.0,
    1.0 / 17.0,
];

/// (−1)^k/(2k+1)!.
pub const SINE: [f64; 8] = [
    1.0,
    -1.0 / 6.0,
    1.0 / 120.0,
    -1.0 / 5_040.0,
    1.0 / 362_880.0,
    -1.0 / 39_916_800.0,
    1.0 / 6_227_020_800.0,
    -1.0 / 1_307_674_368_000.0,
];

/// (−1)^k/(2k)!.
pub const COSINE: [f64; 8] = [
    1.0,
    -1.0 / 2.0,
    1.0 / 24.0,
    -1.0 / 720.0,
    1.0 / 40_320.0,
    -1.0 / 3_628_800.0,
    1.0 / 479_001_600.0,
    -1.0 / 87_178_291_200.0,
];

fn horner<T: Real>(table: &[f64], x: T) -> T {
    let (last, rest) = table.split_last().expect("a table has a coefficient");
    rest.iter()
        .rev()
        .fold(T::from(*last), |sum, c| sum * x + T::from(*c))
}

/// 01 §3 atan.
pub fn atan<T: Real>(x: T) -> T {
    let one = T::one();
    if x.abs() > one {
        let quarter = T::from(FRAC_PI_2);
        let quarter = if x < T::zero() { -quarter } else { quarter };
        return quarter - atan_of_small(one / x);
    }
    atan_of_small(x)
}

fn atan_of_small<T: Real>(x: T) -> T {
    let one = T::one();
    let halved = (0..3).fold(x, |x, _| x / (one + (one + x * x).sqrt()));
    T::from(8.0) * (halved * horner(&ATAN, halved * halved))
}

/// 01 §3 tan.
pub fn tan<T: Real>(x: T) -> T {
    let y = x / T::from(8.0);
    let sine = y * horner(&SINE, y * y);
    let cosine = horner(&COSINE, y * y);
    (0..3).fold(sine / cosine, |t, _| (t + t) / (T::one() - t * t))
}

/// 01 §3 Angle: of `point` less `center`.
pub fn angle<T: Real>(center: Vector2<T>, point: Vector2<T>) -> T {
    let Vector2 { x, y } = point - center;
    let zero = T::zero();
    if x == zero && y == zero {
        zero
    } else if x.abs() >= y.abs() {
        let base = atan(y / x);
        if x < zero {
            let half = T::from(PI);
            if y >= zero { base + half } else { base - half }
        } else {
            base
        }
    } else {
        let quarter = T::from(FRAC_PI_2);
        let quarter = if y < zero { -quarter } else { quarter };
        quarter - atan(x / y)
    }
}

pub fn angle_from_bulge<T: Real>(bulge: T) -> T {
    T::four() * atan(bulge)
}

pub fn bulge_from_angle<T: Real>(sweep: T) -> T {
    tan(sweep / T::four())
}

/// 01 §3 Normalizing: one turn is added to a negative angle.
pub fn normalize_radians<T: Real>(angle: T) -> T {
    if angle < T::zero() {
        angle + T::from(TAU)
    } else {
        angle
    }
}

/// 000's bounding boxes call this; they are left to others (01 §1).
pub fn arc_sweep_extents<T: Real>(
    _start: Vector2<T>,
    _end: Vector2<T>,
    _center: Vector2<T>,
    _radius: T,
    _start_angle: T,
    _sweep: T,
) -> (Vector2<T>, Vector2<T>) {
    unreachable!("no bounding box is asked for")
}
