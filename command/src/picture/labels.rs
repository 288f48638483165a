//! Where a label goes: to that side of its mark where it is clearest of the paths, of the other labels and of the frame.

use crate::svg::Spot;

pub struct Frame {
    pub left: f64,
    pub right: f64,
    pub top: f64,
    pub bottom: f64,
}

/// What labels keep clear of, and those that have their place.
pub struct Labels {
    frame: Frame,
    paths: [Vec<Spot>; 2],
    boxes: Vec<Box>,
}

#[derive(Clone, Copy)]
struct Box {
    middle: Spot,
    half_width: f64,
    half_height: f64,
}

/// About the width of a letter and the height of a digit at the picture's size of text.
const HALF_LETTER: f64 = 12.0;
const HALF_HEIGHT: f64 = 16.0;
/// From a mark to the label's edge: near, and further off where it is crowded.
const AWAY: [f64; 3] = [18.0, 28.0, 40.0];
/// More room than this is no better, and less than this is too little for a label that can be spared.
const ENOUGH: f64 = 24.0;
const LEAST: f64 = 6.0;
/// How near the other path may come between a mark and its label before it seems to be that path's.
const BETWEEN: f64 = 16.0;
/// What outweighs any room.
const NEVER: f64 = 1000.0;

impl Box {
    fn of(middle: Spot, text: &str) -> Box {
        Box { middle, half_width: HALF_LETTER * text.chars().count() as f64, half_height: HALF_HEIGHT }
    }

    fn distance(self, (x, y): Spot) -> f64 {
        let (dx, dy) = ((x - self.middle.0).abs() - self.half_width, (y - self.middle.1).abs() - self.half_height);
        if dx < 0.0 && dy < 0.0 {
            dx.max(dy)
        } else {
            dx.max(0.0).hypot(dy.max(0.0))
        }
    }

    fn distance_of_boxes(self, other: Box) -> f64 {
        let wider =
            Box { half_width: self.half_width + other.half_width, half_height: self.half_height + other.half_height, ..self };
        wider.distance(other.middle)
    }
}

impl Labels {
    pub fn new(frame: Frame, paths: [Vec<Spot>; 2]) -> Labels {
        Labels { frame, paths, boxes: Vec::new() }
    }

    /// Keeps a place for a label that stands already.
    pub fn reserve(&mut self, middle: Spot, text: &str) {
        self.boxes.push(Box::of(middle, text));
    }

    /// The middle of a label beside a mark of one of the paths; it counts for those that follow.
    pub fn place(&mut self, path: usize, mark: Spot, text: &str) -> Spot {
        let (_, best) = self.best(path, mark, text);
        self.boxes.push(best);
        best.middle
    }

    /// The same for a label that is left out where it is too crowded.
    pub fn place_if_clear(&mut self, path: usize, mark: Spot, text: &str) -> Option<Spot> {
        let (worth, best) = self.best(path, mark, text);
        (worth > -NEVER && self.room(best) >= LEAST).then(|| self.place(path, mark, text))
    }

    // A place further from its mark has to be much clearer to be better, and of two that are equal the upper one is.
    fn best(&self, path: usize, mark: Spot, text: &str) -> (f64, Box) {
        let half_width = Box::of(mark, text).half_width;
        let mut best = (f64::NEG_INFINITY, Box::of(mark, text));
        for (part, away) in (0..16).flat_map(|part| AWAY.map(|away| (part, away))) {
            let (sideways, upward) = (std::f64::consts::TAU * f64::from(part) / 16.0).sin_cos();
            let middle = (mark.0 + (half_width + away) * sideways, mark.1 - (HALF_HEIGHT + away) * upward);
            let lost = if self.is_beyond_other(path, mark, middle) { 2.0 * NEVER } else { 0.0 };
            let worth = self.room(Box::of(middle, text)) - 0.5 * away - lost + 0.1 * upward;
            if worth > best.0 {
                best = (worth, Box::of(middle, text));
            }
        }
        best
    }

    fn is_beyond_other(&self, path: usize, mark: Spot, middle: Spot) -> bool {
        let between = ((mark.0 + middle.0) / 2.0, (mark.1 + middle.1) / 2.0);
        let near = |spot: &Spot| (spot.0 - between.0).hypot(spot.1 - between.1) < BETWEEN;
        self.paths.iter().enumerate().any(|(other, spots)| other != path && spots.iter().any(near))
    }

    fn room(&self, label: Box) -> f64 {
        let to_paths = self.paths.iter().flatten().map(|&spot| label.distance(spot));
        let to_labels = self.boxes.iter().map(|&other| label.distance_of_boxes(other));
        let Frame { left, right, top, bottom } = self.frame;
        let (x, y) = label.middle;
        let to_sides =
            [x - label.half_width - left, right - x - label.half_width, y - HALF_HEIGHT - top, bottom - y - HALF_HEIGHT];
        // Outside the frame there is no room at all, whatever else is near.
        let outside = to_sides.into_iter().fold(0.0, |sum: f64, side| sum + side.min(0.0)) * 100.0;
        to_paths.chain(to_labels).fold(ENOUGH, f64::min) + outside
    }
}

#[cfg(test)]
mod tests {
    use super::*;

    const FRAME: Frame = Frame { left: 0.0, right: 1000.0, top: 0.0, bottom: 600.0 };

    #[test]
    fn a_label_stays_on_its_own_side_of_the_other_path() {
        let level = |y: f64| (0..100).map(|step| (10.0 * f64::from(step), y)).collect::<Vec<Spot>>();
        let mut labels = Labels::new(FRAME, [level(300.0), level(320.0)]);
        let (_, y) = labels.place(0, (500.0, 300.0), "12");
        assert!(y < 300.0);
        let (_, y) = labels.place(1, (500.0, 320.0), "12");
        assert!(y > 320.0);
    }

    #[test]
    fn a_label_keeps_clear_of_the_path_and_of_the_frame() {
        let path: Vec<Spot> = (0..100).map(|step| (10.0 * f64::from(step), 300.0)).collect();
        let mut labels = Labels::new(FRAME, [path, vec![]]);
        let (_, y) = labels.place(0, (500.0, 300.0), "12");
        assert!((y - 300.0).abs() > HALF_HEIGHT + 10.0);
        let (x, _) = labels.place(0, (5.0, 300.0), "Moon");
        assert!(x - 4.0 * HALF_LETTER >= 0.0);
    }

    #[test]
    fn two_labels_of_one_mark_do_not_overlap() {
        let mut labels = Labels::new(FRAME, [vec![], vec![]]);
        let (first, second) = (labels.place(0, (500.0, 300.0), "12"), labels.place(0, (500.0, 300.0), "12"));
        assert!((first.0 - second.0).abs() >= 4.0 * HALF_LETTER || (first.1 - second.1).abs() >= 2.0 * HALF_HEIGHT);
    }
}
