//! Single records, and what they leave.

use super::Author;
use crate::gen::model::Model;
use crate::gen::rules::Rules;
use crate::table::Instr;

/// An IF that is being written.
pub(super) struct Branching {
    /// Offset of the place that is not known yet.
    hole: usize,
    second: Model,
    first_end: Option<Model>,
}

/// A WHILE that is being written.
pub(super) struct Looping {
    place: usize,
    register: u8,
    of: Model,
}

impl Author<'_> {
    pub(super) fn emit(&mut self, instr: Instr) {
        instr.encode(&mut self.bytes);
        self.env.apply(&instr, self.words.len(), self.rules);
    }

    pub(super) fn open_if(&mut self, register: u8) -> Branching {
        let hole = self.bytes.len() + 2;
        Instr::If { register, else_place: 0 }.encode(&mut self.bytes);
        let second = self.env.way(register, 0, self.rules);
        self.env = self.env.way(register, 1, self.rules);
        self.depth += 1;
        Branching { hole, second, first_end: None }
    }

    fn fill(&mut self, hole: usize) {
        let place = (self.bytes.len() as u16).to_le_bytes();
        self.bytes[hole..hole + 2].copy_from_slice(&place);
    }

    pub(super) fn turn(&mut self, branching: &mut Branching) {
        self.fill(branching.hole);
        branching.hole = self.bytes.len() + 1;
        Instr::Else { endif_place: 0 }.encode(&mut self.bytes);
        branching.first_end = Some(self.env);
        self.env = branching.second;
    }

    pub(super) fn close_if(&mut self, branching: Branching) {
        self.fill(branching.hole);
        Instr::EndIf.encode(&mut self.bytes);
        let first = branching.first_end.expect("turned");
        self.env = first.join(&self.env);
        self.depth -= 1;
    }

    pub(super) fn open_while(&mut self, register: u8, of: Model) -> Looping {
        let place = self.bytes.len();
        Instr::While { register, end_place: 0, env: of.packed() }.encode(&mut self.bytes);
        let of = match self.rules {
            Rules::LoopArriving => self.env,
            _ => of,
        };
        self.env = of.way(register, 1, self.rules);
        self.depth += 1;
        Looping { place, register, of }
    }

    pub(super) fn close_while(&mut self, looping: Looping) {
        self.fill(looping.place + 2);
        Instr::EndWhile { while_place: looping.place as u16 }.encode(&mut self.bytes);
        self.env = looping.of.way(looping.register, 0, self.rules);
        self.depth -= 1;
    }

    pub(super) fn emit_call(&mut self, function: usize, mark: u8) {
        Instr::Call { function: function as u8, mark }.encode(&mut self.bytes);
        self.env = self.env.called(&self.outputs[function], mark, self.rules);
    }
}
