//! Vertices in turn: what each is refused by, what it hands out, and what the end does.

use super::{Begun, MOST_VERTICES, Out, Pencil, Stage, Wrong};
use crate::polyline::PlineVertex;
use crate::stage::Answer;
use crate::traced::Stroke;

#[derive(Copy, Clone)]
enum Look {
    TooMany,
    Number,
    Repeated,
    Finite,
}

use Look::{Finite, Number, Repeated, TooMany};

impl Pencil {
    /// What a wrong reading refuses before any vertex is drawn: number and place.
    pub(super) fn ahead(&self, begun: &Begun, source: &[f64]) -> Option<(u32, u32)> {
        let place = |given: usize| (begun.vertices + given) as u32;
        let vertices: Vec<[f64; 3]> = source.chunks_exact(3).map(|n| [n[0], n[1], n[2]]).collect();
        match self.wrong {
            Wrong::TooManyFirst => {
                let past = begun.vertices + vertices.len() > MOST_VERTICES;
                past.then_some((2, MOST_VERTICES as u32))
            }
            Wrong::NumbersFirst => {
                let bad = |vertex: &[f64; 3]| self.bad_number(begun, *vertex);
                let given = vertices.iter().position(bad)?;
                Some((3, place(given)))
            }
            Wrong::RepeatedAllFirst => {
                let mut begun = begun.clone();
                let given = vertices.iter().position(|vertex| {
                    let repeated = self.repeated(&begun, *vertex);
                    begun.before = Some(*vertex);
                    repeated
                })?;
                Some((5, place(given)))
            }
            _ => None,
        }
    }

    /// Moves the job on by a vertex, and says what that hands out.
    pub(super) fn turn(&self, begun: &mut Begun, vertex: [f64; 3]) -> Vec<Stroke> {
        let before = begun.before.replace(vertex);
        begun.vertices += 1;
        if before.is_none() {
            begun.first = vertex;
        }
        if self.copies(&begun.settings) {
            return self.copied(begun, before, vertex);
        }
        let [x, y, bulge] = vertex;
        let piece = begun.turns.vertex(PlineVertex::new(x, y, bulge));
        self.reread(begun, piece)
    }

    fn copied(&self, begun: &mut Begun, before: Option<[f64; 3]>, vertex: [f64; 3]) -> Vec<Stroke> {
        let plain = self.is(Wrong::CopyPlainOrigins);
        let stroke = |vertex: [f64; 3], segment: usize| Stroke {
            vertex,
            flag: false,
            origin: (if plain { segment } else { 2 * segment }) as u32,
            end: [0.0; 2],
        };
        let place = begun.vertices - 1;
        match self.wrong {
            Wrong::CopyEarly => vec![stroke(vertex, place)],
            Wrong::CopyLate => {
                let due = std::mem::take(&mut begun.held);
                begun.held = Vec::from_iter(before.map(|left| stroke(left, place - 1)));
                due
            }
            _ => Vec::from_iter(before.map(|left| stroke(left, place.saturating_sub(1)))),
        }
    }

    /// What a wrong reading hands out of a piece, or with it.
    fn reread(&self, begun: &mut Begun, mut piece: Vec<Stroke>) -> Vec<Stroke> {
        match self.wrong {
            Wrong::PieceLate => std::mem::replace(&mut begun.held, piece),
            Wrong::ConnectorLate => {
                let late = piece.iter().filter(|stroke| stroke.origin % 2 == 1);
                let late = late.copied().collect();
                piece.retain(|stroke| stroke.origin % 2 == 0);
                let mut due = std::mem::replace(&mut begun.held, late);
                due.extend(piece);
                due
            }
            Wrong::SpanEarly => {
                let mut turns = begun.turns;
                piece.extend(turns.end_of_any().0);
                piece
            }
            Wrong::FirstEarly if begun.vertices == 2 => {
                let mut turns = begun.turns;
                Vec::from_iter(turns.end_of_any().0)
            }
            Wrong::FirstLeft => {
                piece.retain(|stroke| stroke.origin != 0);
                piece
            }
            Wrong::FirstCollapsedLeft => {
                piece.retain(|stroke| !(stroke.flag && stroke.origin == 0));
                piece
            }
            _ => piece,
        }
    }

    /// The number that a vertex is refused with.
    pub(super) fn refusal(&self, begun: &Begun, vertex: [f64; 3], piece: &[Stroke]) -> Option<u32> {
        let order = match self.wrong {
            Wrong::RepeatedBeforeNumber => [TooMany, Repeated, Number, Finite],
            Wrong::NumberBeforeTooMany => [Number, TooMany, Repeated, Finite],
            Wrong::RepeatedBeforeTooMany if begun.vertices >= MOST_VERTICES => {
                [Repeated, TooMany, Number, Finite]
            }
            Wrong::FiniteBeforeNumber => [TooMany, Finite, Number, Repeated],
            Wrong::FiniteBeforeRepeated => [TooMany, Number, Finite, Repeated],
            _ => [TooMany, Number, Repeated, Finite],
        };
        let most = match self.wrong {
            Wrong::MostMore => MOST_VERTICES + 1,
            Wrong::MostLess => MOST_VERTICES - 1,
            _ => MOST_VERTICES,
        };
        order.into_iter().find_map(|look| match look {
            TooMany => (begun.vertices >= most).then_some(2),
            Number => self.bad_number(begun, vertex).then_some(3),
            Repeated => self.repeated(begun, vertex).then_some(5),
            Finite => self.not_finite(begun, piece).then_some(6),
        })
    }

    fn bad_number(&self, begun: &Begun, [x, y, bulge]: [f64; 3]) -> bool {
        let nan_taken = self.is(Wrong::NanTaken);
        let in_plane = |number: f64| {
            let on_limit = self.is(Wrong::LimitsOut) && number.abs() == 1e6;
            (-1e6..=1e6).contains(&number) && !on_limit || nan_taken && number.is_nan()
        };
        let most = if self.is(Wrong::BulgeThousand) {
            1e3
        } else {
            1e9
        };
        let bulge = if self.is(Wrong::BulgeLater) {
            begun.before.map_or(0.0, |before| before[2])
        } else {
            bulge
        };
        let is_bulge = (-most..=most).contains(&bulge) || nan_taken && bulge.is_nan();
        !(in_plane(x) && in_plane(y) && is_bulge)
    }

    fn repeated(&self, begun: &Begun, [x, y, _]: [f64; 3]) -> bool {
        let Some(mut before) = begun.before else {
            return false;
        };
        if self.copies(&begun.settings) && !self.is(Wrong::CopyRepeated) {
            return false;
        }
        if self.is(Wrong::RepeatedWithFirst) {
            before = begun.first;
        }
        let pairs = [(before[0], x), (before[1], y)];
        match self.wrong {
            Wrong::RepeatedWithinEps => {
                let eps = begun.settings.eps;
                pairs.iter().all(|(a, b)| (a - b).abs() < eps)
            }
            Wrong::RepeatedByBits => pairs.iter().all(|(a, b)| a.to_bits() == b.to_bits()),
            Wrong::RepeatedInX => before[0] == x,
            Wrong::RepeatedByDifference => pairs.iter().all(|(a, b)| a - b == 0.0),
            _ => pairs.iter().all(|(a, b)| a == b),
        }
    }

    /// Of a copy nothing is asked.
    pub(super) fn asks_finite(&self, begun: &Begun) -> bool {
        !self.copies(&begun.settings) || self.is(Wrong::CopyFinite)
    }

    fn not_finite(&self, begun: &Begun, piece: &[Stroke]) -> bool {
        if !self.asks_finite(begun) || self.is(Wrong::SixAtEndAlone) {
            return false;
        }
        let leads_nowhere = |stroke: &Stroke| stroke.end.iter().any(|number| !number.is_finite());
        piece.iter().any(|stroke| {
            !self.is_finite(stroke.vertex)
                || self.is(Wrong::SixWhereItArises) && leads_nowhere(stroke)
        })
    }

    pub(super) fn is_finite(&self, vertex: [f64; 3]) -> bool {
        let [x, y, bulge] = vertex;
        match self.wrong {
            Wrong::SixNever => true,
            Wrong::SixOfNan => !(x.is_nan() || y.is_nan() || bulge.is_nan()),
            Wrong::SixWithoutBulges => x.is_finite() && y.is_finite(),
            _ => vertex.iter().all(|number| number.is_finite()),
        }
    }

    /// The place of a vertex's refusal.
    pub(super) fn place(&self, number: u32, begun: &Begun, given: usize) -> u32 {
        let place = begun.vertices;
        let place = match (self.wrong, number) {
            (Wrong::TooManyPlaceZero, 2) | (Wrong::SixPlaceZero, 6) => 0,
            (Wrong::TooManyPlaceMore, 2) => place + 1,
            (Wrong::NumberPlaceInCall, 3) => given,
            (Wrong::RepeatedEarlier, 5) | (Wrong::SixPlaceBefore, 6) => place.saturating_sub(1),
            _ => place,
        };
        place as u32
    }

    pub(super) fn refuse_vertex(
        &mut self,
        number: u32,
        begun: Begun,
        piece: &[Stroke],
        given: usize,
        mut out: Out,
    ) -> Answer {
        let place = self.place(number, &begun, given);
        let six = number == 6;
        if self.is(Wrong::RefusalUndone) || six && self.is(Wrong::SixUndone) {
            out.take_back();
        }
        if six && self.is(Wrong::SixHalf) {
            out.hand(self.finite_half(piece), begun.segments);
        }
        if six {
            out.zeros(Wrong::SixZeros, begun.settings.each() * (given + 1));
        }
        let mut answer = out.answer([number, place]);
        if self.is(Wrong::RefusalUncounted) {
            answer[2..].fill(0);
        }
        if self.is(Wrong::RefusalForgotten) || six && self.is(Wrong::SixForgotten) {
            self.set(Stage::Begun(Box::new(begun)));
            return answer;
        }
        self.refuse(answer)
    }

    /// What comes before the first that is not finite.
    fn finite_half<'a>(&self, piece: &'a [Stroke]) -> &'a [Stroke] {
        let finite = |stroke: &&Stroke| self.is_finite(stroke.vertex);
        &piece[..piece.iter().take_while(finite).count()]
    }

    /// By a wrong reading a draw ends with the point that the walk has come to.
    pub(super) fn point_with_draw(&self, begun: &Begun, out: &mut Out) {
        if !self.is(Wrong::PointWithDraw) {
            return;
        }
        if let Some(point) = begun.turns.point() {
            out.hand_point(point);
        }
    }

    /// What the end hands out.
    pub(super) fn last(&self, begun: &mut Begun) -> (Vec<Stroke>, Option<[f64; 3]>) {
        if self.copies(&begun.settings) {
            return self.last_of_copy(begun);
        }
        let mut strokes = std::mem::take(&mut begun.held);
        let (span, mut point) = match self.wrong {
            Wrong::LoneCollapsedDrawn => begun.turns.end_of_any(),
            _ => begun.turns.end(),
        };
        let left = |stroke: &Stroke| match self.wrong {
            Wrong::EndWithoutSpan => true,
            Wrong::EndFlaggedLeft => stroke.flag,
            _ => false,
        };
        strokes.extend(span.filter(|stroke| !left(stroke)));
        match (self.wrong, begun.before) {
            (Wrong::EndIfHandedOut, _) if begun.segments + strokes.len() == 0 => point = None,
            (Wrong::EndWithoutPoint, _) => point = None,
            (Wrong::EndPointAlways, Some([x, y, _])) => point = point.or(Some([x, y, 0.0])),
            (Wrong::EndPointOwnBulge, Some([_, _, bulge])) => {
                point = point.map(|[x, y, _]| [x, y, bulge]);
            }
            _ => {}
        }
        (strokes, point)
    }

    fn last_of_copy(&self, begun: &mut Begun) -> (Vec<Stroke>, Option<[f64; 3]>) {
        let strokes = std::mem::take(&mut begun.held);
        let alone = begun.vertices < 2 && !self.is(Wrong::CopyLone);
        let point = begun
            .before
            .filter(|_| !alone && !self.is(Wrong::CopyEarly));
        let point = match (self.wrong, point) {
            (Wrong::CopyBulgeZero, Some([x, y, _])) => Some([x, y, 0.0]),
            _ => point,
        };
        (strokes, point)
    }

    /// The end that would hand out what is not finite.
    pub(super) fn refuse_end(&mut self, begun: Begun, strokes: &[Stroke], mut out: Out) -> Answer {
        let place = match self.wrong {
            Wrong::SixEndPlaceZero => 0,
            Wrong::SixEndPlaceBefore => begun.vertices - 1,
            _ => begun.vertices,
        };
        if self.is(Wrong::SixEndHalf) {
            out.hand(self.finite_half(strokes), begun.segments);
        }
        out.zeros(Wrong::SixEndZeros, 2);
        let answer = out.answer([6, place as u32]);
        match self.wrong {
            Wrong::SixEndForgotten => self.set(Stage::Ended(begun.vertices)),
            Wrong::SixEndLost => self.set(Stage::Begun(Box::new(begun))),
            _ => self.set(Stage::Refused(answer)),
        }
        answer
    }
}
