//! Which rows are drawn, and where they stand.

use gambozuri::Violation;

/// Of a recording with a violation and more frames than this, so many rows before the violation and
/// behind it are drawn.
const WHOLE: usize = 400;
const BEFORE: usize = 199;
const BEHIND: usize = 200;

/// The heights of a row, and of what stands in it below its top.
pub const ROW: usize = 18;
pub const MARK: usize = 1;
pub const START: usize = 2;
pub const MIDDLE: usize = 9;
pub const BASELINE: usize = 13;
pub const STOP: usize = 16;

/// The rows that are drawn: those of the places from `first` on, before `end`.
pub struct Rows {
    pub first: usize,
    pub end: usize,
    pub top: usize,
}

impl Rows {
    pub fn bottom(&self) -> usize {
        self.top + ROW * (self.end - self.first)
    }

    pub fn has(&self, place: usize) -> bool {
        (self.first..self.end).contains(&place)
    }

    /// Whether a part of what goes from a place to another, or on to the end, is drawn.
    pub fn has_part(&self, from: usize, to: Option<usize>) -> bool {
        from < self.end && to.is_none_or(|to| to >= self.first)
    }

    /// So far below the top of a place's row; the top or the bottom of all rows for other places.
    pub fn below(&self, place: usize, height: usize) -> usize {
        if place < self.first {
            self.top
        } else if place >= self.end {
            self.bottom()
        } else {
            self.top + ROW * (place - self.first) + height
        }
    }

    /// The same of a place that may not be there, which is behind all.
    pub fn below_end(&self, place: Option<usize>, height: usize) -> usize {
        place.map_or(self.bottom(), |place| self.below(place, height))
    }
}

/// The first place that is drawn, and the one behind the last.
pub fn window(
    count: usize,
    violation: Option<&Violation>,
    from: Option<usize>,
    to: Option<usize>,
) -> (usize, usize) {
    let (first, end) = match (from, to, violation) {
        (None, None, Some(violation)) if count > WHOLE => {
            let wrong = usize::from(violation.frame);
            (wrong.saturating_sub(BEFORE), wrong + 1 + BEHIND)
        }
        _ => (
            from.map_or(0, |line| line.saturating_sub(1)),
            to.unwrap_or(count),
        ),
    };
    let end = end.min(count);
    (first.min(end), end)
}
