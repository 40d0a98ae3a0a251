//! A plan and the points to change it at: those of the command line first, then those of a list.

use crate::lists::List;
use crate::place::Place;
use crate::plan::Plan;
use crate::points::{point, point_word};
use crate::trouble::{Outcome, Trouble};
use crate::words::{Command, Words};
use flaskbloom::{Point, RefusedAt};

pub struct Asked {
    pub plan: Plan,
    pub points: Vec<Point>,
    /// How many of them were typed.
    typed: usize,
    list: Option<List>,
}

impl Asked {
    /// The words PLAN POINT.. and the option --list, of which there has to be a point or a list.
    pub fn load(command: &Command, words: &Words) -> Outcome<Asked> {
        let (plan_word, point_words) = words.plain.split_first().ok_or_else(|| command.wrong("no plan is given"))?;
        let mut points = point_words.iter().map(|word| point_word(command, word)).collect::<Outcome<Vec<Point>>>()?;
        let typed = points.len();
        if typed == 0 && !words.has("--list") {
            return Err(command.wrong("no point is given"));
        }
        let plan = Plan::load(plan_word)?;
        let list = words.value("--list").map(List::load).transpose()?;
        if let Some(list) = &list {
            points.extend(list.parsed(point)?);
        }
        Ok(Asked { plan, points, typed, list })
    }

    /// The point at fault, as it was spelled, and the list's line where it has one; `at` counts the points before it.
    pub fn refused(&self, refused: RefusedAt) -> Trouble {
        let at = usize::try_from(refused.at).unwrap_or(usize::MAX);
        let line = self.list.as_ref().zip(at.checked_sub(self.typed)).map(|(list, item)| list.place(item));
        let name = self.plan.name.clone();
        let place = match (self.points.get(at), line) {
            (Some(p), None) => Place::Point(name, *p),
            (Some(p), Some(line)) => Place::Listed(name, *p, Box::new(line)),
            (None, _) => Place::File(name),
        };
        Trouble::refused(place, refused.refusal)
    }
}
