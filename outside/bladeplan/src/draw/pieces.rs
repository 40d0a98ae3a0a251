//! A path in pieces of neighbouring figures, for a page that is zoomed: a browser then passes over the pieces out of sight.

use super::geometry::place;
use flaskbloom::Point;

/// The items in lists of at most so many, each list of items that lie together; within a list they keep their order.
pub fn pieces<T>(items: Vec<T>, most: usize, at: &impl Fn(&T) -> Point) -> Vec<Vec<T>> {
    if items.len() <= most.max(1) {
        return vec![items];
    }
    let places: Vec<(f64, f64)> = items.iter().map(|item| place(at(item))).collect();
    let wide = spread(places.iter().map(|(x, _)| *x)) >= spread(places.iter().map(|(_, y)| *y));
    let along: Vec<f64> = places.iter().map(|(x, y)| if wide { *x } else { *y }).collect();
    let middle = middle(&along);
    let (mut low, mut high) = (Vec::new(), Vec::new());
    for (item, x) in items.into_iter().zip(along) {
        if x < middle {
            low.push(item)
        } else {
            high.push(item)
        }
    }
    if low.is_empty() {
        return vec![high]; // all at one place
    }
    let mut all = pieces(low, most, at);
    all.extend(pieces(high, most, at));
    all
}

fn spread(places: impl Iterator<Item = f64> + Clone) -> f64 {
    places.clone().fold(f64::MIN, f64::max) - places.fold(f64::MAX, f64::min)
}

/// The place that has half of the others below it, or the next above the least.
fn middle(along: &[f64]) -> f64 {
    let mut sorted = along.to_vec();
    sorted.sort_unstable_by(f64::total_cmp);
    let half = sorted[sorted.len() / 2];
    sorted.iter().copied().find(|x| *x >= half && *x > sorted[0]).unwrap_or(half)
}

#[cfg(test)]
mod tests {
    use super::*;

    #[test]
    fn pieces_lose_nothing() {
        let items: Vec<Point> = (0..100).map(|i| Point::new(i % 10, i / 10, 0)).collect();
        let all = pieces(items.clone(), 7, &|p| *p);
        assert!(all.iter().all(|piece| !piece.is_empty() && piece.len() <= 7));
        let mut back: Vec<Point> = all.into_iter().flatten().collect();
        back.sort_by_key(|p| (p.b, p.a));
        assert_eq!(back, items);
        assert_eq!(pieces(vec![Point::new(1, 1, 0); 9], 4, &|p| *p).concat().len(), 9);
    }
}
