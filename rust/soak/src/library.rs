//! The library's session behind the trait of calls.

use abi::session::{Closest, Probed, Reply, Session};
use model::calls::Calls;
use model::session::Fields;

/// The library's session.
#[derive(Clone, Copy, Debug)]
pub struct Library(pub Session);

impl From<Fields> for Library {
    fn from(fields: Fields) -> Self {
        let Fields { opened, width, height, current, engine, lowered, x, y, q, met, closest: size } = fields;
        Library(Session { opened, width, height, current, engine, lowered, x, y, q, closest: Closest { met, size } })
    }
}

impl From<Library> for Fields {
    fn from(Library(session): Library) -> Self {
        let Session { opened, width, height, current, engine, lowered, x, y, q, closest: Closest { met, size } } = session;
        Fields { opened, width, height, current, engine, lowered, x, y, q, met, closest: size }
    }
}

/// What a call of the library hands back.
fn told(Reply { answer, session }: Reply) -> (u32, Library) {
    (answer, Library(session))
}

impl Calls for Library {
    fn fresh() -> Self {
        Library(Session::fresh())
    }

    fn open(self, sheet: &mut [u8], w: u16, h: u16) -> (u32, Self) {
        told(self.0.open(sheet, w, h))
    }

    fn paint(self, sheet: &mut [u8], x: u16, y: u16, w: u16, h: u16) -> (u32, Self) {
        told(self.0.paint(sheet, x, y, w, h))
    }

    fn erase(self, sheet: &mut [u8], x: u16, y: u16, w: u16, h: u16) -> (u32, Self) {
        told(self.0.erase(sheet, x, y, w, h))
    }

    fn build(self, sheet: &[u8], map: &mut [i16], values: &mut [u16], scratch: &mut [i16], engine: u16) -> (u32, Self) {
        told(self.0.build(sheet, map, values, scratch, engine))
    }

    fn place(self, map: &[i16], values: &[u16], x: u16, y: u16, q: u32) -> (u32, Self) {
        told(self.0.place(map, values, x, y, q))
    }

    fn run(self, map: &[i16], values: &[u16], direction: u16, count: u16) -> (u32, Self) {
        told(self.0.run(map, values, direction, count))
    }

    fn lift(self) -> (u32, Self) {
        told(self.0.lift())
    }

    fn expand(self, sheet: &mut [u8], map: &mut [i16], scratch: &mut [i16], q: u32) -> (u32, Self) {
        told(self.0.expand(sheet, map, scratch, q))
    }

    fn shrink(self, sheet: &mut [u8], map: &mut [i16], scratch: &mut [i16], q: u32) -> (u32, Self) {
        told(self.0.shrink(sheet, map, scratch, q))
    }

    fn skeleton(self, map: &[i16], out: &mut [u8]) -> (u32, Self) {
        told(self.0.skeleton(map, out))
    }

    fn rebuild(self, map: &[i16], marks: &[u8], out: &mut [u8]) -> (u32, Self) {
        told(self.0.rebuild(map, marks, out))
    }

    fn probe(self, sheet: &[u8], points: &[u16], scratch: &mut [i16], out: &mut [u32]) -> (u32, u32, Self) {
        let Probed { answer, rows, session } = self.0.probe(sheet, points, scratch, out);
        (answer, rows, Library(session))
    }

    fn map_row(self, map: &[i16], y: u16) -> &[i16] {
        self.0.map_row(map, y)
    }
}
