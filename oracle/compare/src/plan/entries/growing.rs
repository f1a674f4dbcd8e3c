//! A plan that grows call by call, beside a model that only pushes on lists.

use crate::call::Call;
use crate::judge::{DONE, NO_MATERIAL, NO_ROOM};
use crate::plan::check::expect;
use crate::plan::draw::{self, Style};
use crate::plan::layout::*;
use crate::plan::lent::Lent;
use crate::plan::model::{Light, Material, Piece, Plan};
use crate::rng::Rng;
use crate::words;

/// What an entry adds.
pub enum Thing {
    Material(Material),
    Plane(Piece),
    Light(Light),
    Object(Piece),
}

impl Thing {
    pub fn call(&self) -> Call {
        match self {
            Thing::Material(_) => Call::AddMaterial,
            Thing::Plane(_) => Call::AddPlane,
            Thing::Light(_) => Call::AddLight,
            Thing::Object(_) => Call::AddObject,
        }
    }

    fn piece(&self) -> Option<&Piece> {
        match self {
            Thing::Plane(piece) | Thing::Object(piece) => Some(piece),
            _ => None,
        }
    }

    /// With anything in the words that are not read.
    pub fn args(&self, rng: &mut Rng) -> Vec<u32> {
        match self {
            Thing::Material(material) => material.to_vec(),
            Thing::Light(light) => light.to_vec(),
            Thing::Plane(piece) | Thing::Object(piece) => piece.args(|| rng.word()),
        }
    }
}

pub struct Growing {
    pub lent: Lent,
    pub plan: Plan,
    pub rng: Rng,
    style: Style,
    /// How often each number was sent.
    pub sent: [usize; 10],
}

impl Growing {
    /// From the empty plan.
    pub fn new(seed: u64) -> Growing {
        let mut rng = Rng::new(seed);
        let plan = Plan::default();
        Growing { lent: Lent::new(&plan, rng.below(64)), plan, style: draw::style(&mut rng), rng, sent: [0; 10] }
    }

    /// Something for a list: a piece has so many cutters, and one of so many materials.
    pub fn draw(&mut self, list: List, materials: usize, cutters: usize) -> Thing {
        let (rng, style) = (&mut self.rng, &self.style);
        match list {
            List::Materials => Thing::Material(draw::material(rng)),
            List::Lights => Thing::Light(draw::light(rng, style)),
            List::Planes => Thing::Plane(draw::piece(rng, style, list, materials, cutters)),
            List::Objects => Thing::Object(draw::piece(rng, style, list, materials, cutters)),
        }
    }

    /// The number that a thing of sound words gets, by the model alone.
    fn number(&self, thing: &Thing) -> u32 {
        let list = thing.call().enters().unwrap();
        let full = self.plan.count(list) == list.section().records;
        let cutters = thing.piece().map_or(0, |piece| piece.cutters.len());
        let present = |piece: &Piece| (piece.material as usize) < self.plan.materials.len();
        if full || self.plan.cutters() + cutters > CUTTERS.records {
            NO_ROOM
        } else if !thing.piece().is_none_or(present) {
            NO_MATERIAL
        } else {
            DONE
        }
    }

    /// Enters what has sound words, and compares the table with the model's too.
    pub fn enter(&mut self, thing: Thing) -> Result<u32, String> {
        let number = self.number(&thing);
        if self.rng.one_in(8) {
            // A tree, of a sort, for an object to drop.
            let junk = self.rng.word();
            let junk = |i: usize| (i as u32 + 1).wrapping_mul(junk) as u8;
            self.lent.nodes.fill(junk);
            self.lent.order.fill(junk);
        }
        self.lent.args(&thing.args(&mut self.rng));
        expect(thing.call(), &mut self.lent, number)?;
        self.sent[number as usize] += 1;
        if number == DONE {
            match thing {
                Thing::Material(material) => self.plan.materials.push(material),
                Thing::Plane(piece) => self.plan.planes.push(piece),
                Thing::Light(light) => self.plan.lights.push(light),
                Thing::Object(piece) => self.plan.objects.push(piece),
            }
            self.as_the_model()?;
        }
        Ok(number)
    }

    fn as_the_model(&self) -> Result<(), String> {
        let table = self.plan.table();
        let differs = |i: &usize| self.lent.plan.word(*i) != table[*i];
        (0..PLAN_WORDS).find(differs).map_or(Ok(()), |i| {
            let (have, model) = (self.lent.plan.word(i), table[i]);
            let (have, model) = (words::show(have), words::show(model));
            Err(format!("word {i} of the plan is {have}, the model's {model}"))
        })
    }

    /// The same, where the number is known beforehand, so that the model is tested too.
    pub fn must(&mut self, thing: Thing, number: u32) -> Result<(), String> {
        let have = self.enter(thing)?;
        if have == number {
            Ok(())
        } else {
            Err(format!("our model says {have}, the case says {number}"))
        }
    }
}
