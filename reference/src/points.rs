//! Points to come back to: up to four, each a name and one image for each cabinet. They stand
//! beside the group; taking a point changes the points alone, a return the group alone.

use crate::model::{without_workshop, Group, Image, TAKEN};

pub const NAME_LENGTH: usize = 8;
pub type Name = [u8; NAME_LENGTH];

const PLACES: usize = 4;
const GROUP_CRASHED: u8 = 10;
const NO_SUCH_NAME: u8 = 21;
const NOT_QUIET: u8 = 22;
const A_FIFTH_NAME: u8 = 23;

#[derive(Clone, PartialEq, Eq)]
struct Point {
    name: Name,
    images: Vec<Image>,
}

#[derive(Clone, Default, PartialEq, Eq)]
pub struct Points(Vec<Point>);

impl Points {
    pub fn names(&self) -> Vec<Name> {
        self.0.iter().map(|point| point.name).collect()
    }

    /// The images that the point of this name keeps.
    pub fn images(&self, name: Name) -> Option<&[Image]> {
        let named = self.0.iter().find(|point| point.name == name);
        named.map(|point| &point.images[..])
    }

    /// Keeps the images of the committed version; answers 0 or the refusal.
    pub fn take(&mut self, group: &Group, name: Name) -> u8 {
        if group.crashed() {
            return GROUP_CRASHED;
        }
        if !group.quiet() {
            return NOT_QUIET;
        }
        let point = Point { name, images: committed_images(group) };
        match self.0.iter().position(|old| old.name == name) {
            Some(place) => self.0[place] = point,
            None if self.0.len() == PLACES => return A_FIFTH_NAME,
            None => self.0.push(point),
        }
        TAKEN
    }

    /// With nothing booked by the workshop.
    pub fn but_for_amounts(&self) -> Points {
        let point = |Point { name, images }: &Point| {
            let images = images.iter().copied().map(without_workshop).collect();
            Point { name: *name, images }
        };
        Points(self.0.iter().map(point).collect())
    }

    /// Sets all images and slots to the point's; answers 0 or the refusal.
    pub fn return_to(&self, group: &mut Group, name: Name) -> u8 {
        if group.crashed() {
            return GROUP_CRASHED;
        }
        let Some(images) = self.images(name) else {
            return NO_SUCH_NAME;
        };
        if !group.quiet() {
            return NOT_QUIET;
        }
        group.set_images(images);
        TAKEN
    }
}

fn committed_images(group: &Group) -> Vec<Image> {
    let image = |number| group.committed_image(number);
    let known = |number| image(number).expect("in a quiet group every recovery has ended");
    group.numbers().map(known).collect()
}
