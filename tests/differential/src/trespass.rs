//! A core that answers rightly and then writes where it must not, to test that the harness notices.

use reference::{Clean, Core, Record, Stores};
use std::ptr;

/// Where it writes, in every call that has such a slice.
#[derive(Clone, Copy, PartialEq, Eq, Debug)]
pub enum Trespass {
    BeforeObservations,
    BehindObservations,
    BeforeAssets,
    BehindAssets,
    BeforeReply,
    BehindReply,
    IntoModel,
    BehindNames,
    IntoText,
    IntoId,
    BehindBody,
    IntoStoresByRequest,
    IntoRecords,
    BehindRecords,
    BeforeAnswers,
    BehindAnswers,
    IntoLine,
    BehindLine,
    BeforeWritten,
    BehindWritten,
    IntoRows,
    BehindRows,
    BeforeDocument,
    BehindDocument,
}

impl Trespass {
    pub const ALL: [Trespass; 24] = [
        Trespass::BeforeObservations,
        Trespass::BehindObservations,
        Trespass::BeforeAssets,
        Trespass::BehindAssets,
        Trespass::BeforeReply,
        Trespass::BehindReply,
        Trespass::IntoModel,
        Trespass::BehindNames,
        Trespass::IntoText,
        Trespass::IntoId,
        Trespass::BehindBody,
        Trespass::IntoStoresByRequest,
        Trespass::IntoRecords,
        Trespass::BehindRecords,
        Trespass::BeforeAnswers,
        Trespass::BehindAnswers,
        Trespass::IntoLine,
        Trespass::BehindLine,
        Trespass::BeforeWritten,
        Trespass::BehindWritten,
        Trespass::IntoRows,
        Trespass::BehindRows,
        Trespass::BeforeDocument,
        Trespass::BehindDocument,
    ];
}

pub struct Trespasser {
    core: Stores<Clean>,
    kind: Trespass,
}

impl Trespasser {
    pub fn new(kind: Trespass) -> Trespasser {
        Trespasser { core: Stores::new(Clean), kind }
    }

    /// Changes the cell so many places from the slice's start, if this is the kind. The harness's
    /// slices lie between guards, so the memory is there; by way of an address, as a call in C
    /// would reach it.
    #[inline(never)]
    fn write<T: Copy + Flip>(&self, kind: Trespass, slice: &[T], offset: isize) {
        let inside = (0..slice.len() as isize).contains(&offset);
        if self.kind != kind || (!inside && slice.is_empty()) {
            return;
        }
        let address =
            slice.as_ptr().expose_provenance().wrapping_add_signed(offset * size_of::<T>() as isize);
        let cell = ptr::with_exposed_provenance_mut::<T>(address);
        // SAFETY: a cell of the slice or one of the guards beside it.
        unsafe { cell.write_volatile(cell.read_volatile().flip()) }
    }

    fn behind<T: Copy + Flip>(&self, kind: Trespass, slice: &[T]) {
        self.write(kind, slice, slice.len() as isize);
    }
}

/// Another value.
trait Flip {
    fn flip(self) -> Self;
}

impl Flip for u8 {
    fn flip(self) -> u8 {
        !self
    }
}

impl Flip for u32 {
    fn flip(self) -> u32 {
        !self
    }
}

impl Flip for u64 {
    fn flip(self) -> u64 {
        !self
    }
}

impl Flip for Record {
    fn flip(self) -> Record {
        Record { time: !self.time, ..self }
    }
}

impl Core for Trespasser {
    fn start(
        &self,
        model: &[u32],
        names: &[u8],
        observations: &mut [u64],
        assets: &mut [u8],
        n: u64,
        a: u64,
        b: u64,
        host: u64,
    ) -> (u64, u64) {
        Core::start(&self.core, model, names, observations, assets, n, a, b, host)
    }

    fn observe(
        &self,
        model: &[u32],
        names: &[u8],
        observations: &mut [u64],
        item: u64,
        time: u64,
        host: u64,
        value: u64,
    ) -> u64 {
        let answer = Core::observe(&self.core, model, names, observations, item, time, host, value);
        self.write(Trespass::BeforeObservations, observations, -1);
        self.behind(Trespass::BehindObservations, observations);
        self.write(Trespass::IntoModel, model, 0);
        self.behind(Trespass::BehindNames, names);
        answer
    }

    fn observe_batch(
        &self,
        model: &[u32],
        names: &[u8],
        observations: &mut [u64],
        records: &[Record],
        host: u64,
        answers: &mut [u64],
    ) -> (u64, u64) {
        let answer = Core::observe_batch(&self.core, model, names, observations, records, host, answers);
        if !records.is_empty() {
            self.write(Trespass::IntoRecords, records, 0);
        }
        self.behind(Trespass::BehindRecords, records);
        self.write(Trespass::BeforeAnswers, answers, -1);
        self.behind(Trespass::BehindAnswers, answers);
        answer
    }

    fn read_line(
        &self,
        model: &[u32],
        names: &[u8],
        observations: &mut [u64],
        line: &[u8],
        host: u64,
    ) -> u64 {
        let answer = Core::read_line(&self.core, model, names, observations, line, host);
        if !line.is_empty() {
            self.write(Trespass::IntoLine, line, 0);
        }
        self.behind(Trespass::BehindLine, line);
        answer
    }

    fn write_line(
        &self,
        model: &[u32],
        names: &[u8],
        item: u64,
        time: u64,
        value: u64,
        text: &mut [u8],
    ) -> (u64, u64) {
        let answer = Core::write_line(&self.core, model, names, item, time, value, text);
        self.write(Trespass::BeforeWritten, text, -1);
        self.behind(Trespass::BehindWritten, text);
        answer
    }

    fn streams(
        &self,
        model: &[u32],
        names: &[u8],
        reply: &[u64],
        n: u64,
        instance_id: u64,
        creation_time: u64,
        text: &mut [u8],
    ) -> (u64, u64) {
        let answer = Core::streams(&self.core, model, names, reply, n, instance_id, creation_time, text);
        if !reply.is_empty() {
            self.write(Trespass::IntoRows, reply, 0);
        }
        self.behind(Trespass::BehindRows, reply);
        self.write(Trespass::BeforeDocument, text, -1);
        self.behind(Trespass::BehindDocument, text);
        answer
    }

    fn store_asset(
        &self,
        model: &[u32],
        names: &[u8],
        observations: &mut [u64],
        assets: &mut [u8],
        id: &[u8],
        body: &[u8],
        host: u64,
    ) -> u64 {
        let answer = Core::store_asset(&self.core, model, names, observations, assets, id, body, host);
        self.write(Trespass::BeforeAssets, assets, -1);
        self.behind(Trespass::BehindAssets, assets);
        self.behind(Trespass::BehindBody, body);
        answer
    }

    fn request(
        &self,
        model: &[u32],
        names: &[u8],
        observations: &[u64],
        assets: &[u8],
        text: &[u8],
        reply: &mut [u64],
    ) -> (u64, u64) {
        let answer = Core::request(&self.core, model, names, observations, assets, text, reply);
        self.write(Trespass::BeforeReply, reply, -1);
        self.behind(Trespass::BehindReply, reply);
        if !text.is_empty() {
            self.write(Trespass::IntoText, text, 0);
        }
        self.write(Trespass::IntoStoresByRequest, observations, 4);
        answer
    }

    fn body(&self, assets: &[u8], id: &[u8]) -> (u64, u64) {
        let answer = Core::body(&self.core, assets, id);
        if !id.is_empty() {
            self.write(Trespass::IntoId, id, 0);
        }
        answer
    }
}
