//! The two sides of a comparison.

use differential::under_test::{self, UnderTest};
use reference::{Clean, Core, Record, Stores};

/// The core: the archive's functions, or the reference where there is no archive.
#[cfg(feature = "archive")]
pub fn core() -> UnderTest {
    under_test::core()
}

#[cfg(not(feature = "archive"))]
pub fn core() -> Apart<UnderTest> {
    Apart(under_test::core())
}

/// The reference's store layer, without planted faults.
pub fn reference() -> Apart<Stores<Clean>> {
    Apart(Stores::default())
}

/// Calls that are not compiled into the loop around them: like the archive's they are called.
pub struct Apart<C>(C);

impl<C: Core> Core for Apart<C> {
    #[inline(never)]
    fn start(
        &self,
        model: &[u32],
        names: &[u8],
        observations: &mut [u64],
        assets: &mut [u8],
        n: u64,
        a: u64,
        b: u64,
        host: u64,
    ) -> (u64, u64) {
        self.0.start(model, names, observations, assets, n, a, b, host)
    }

    #[inline(never)]
    fn observe(
        &self,
        model: &[u32],
        names: &[u8],
        observations: &mut [u64],
        item: u64,
        time: u64,
        host: u64,
        value: u64,
    ) -> u64 {
        self.0.observe(model, names, observations, item, time, host, value)
    }

    #[inline(never)]
    fn observe_batch(
        &self,
        model: &[u32],
        names: &[u8],
        observations: &mut [u64],
        records: &[Record],
        host: u64,
        answers: &mut [u64],
    ) -> (u64, u64) {
        self.0.observe_batch(model, names, observations, records, host, answers)
    }

    #[inline(never)]
    fn read_line(
        &self,
        model: &[u32],
        names: &[u8],
        observations: &mut [u64],
        line: &[u8],
        host: u64,
    ) -> u64 {
        self.0.read_line(model, names, observations, line, host)
    }

    #[inline(never)]
    fn write_line(
        &self,
        model: &[u32],
        names: &[u8],
        item: u64,
        time: u64,
        value: u64,
        text: &mut [u8],
    ) -> (u64, u64) {
        self.0.write_line(model, names, item, time, value, text)
    }

    #[inline(never)]
    fn streams(
        &self,
        model: &[u32],
        names: &[u8],
        reply: &[u64],
        n: u64,
        instance_id: u64,
        creation_time: u64,
        text: &mut [u8],
    ) -> (u64, u64) {
        self.0.streams(model, names, reply, n, instance_id, creation_time, text)
    }

    #[inline(never)]
    fn store_asset(
        &self,
        model: &[u32],
        names: &[u8],
        observations: &mut [u64],
        assets: &mut [u8],
        id: &[u8],
        body: &[u8],
        host: u64,
    ) -> u64 {
        self.0.store_asset(model, names, observations, assets, id, body, host)
    }

    #[inline(never)]
    fn request(
        &self,
        model: &[u32],
        names: &[u8],
        observations: &[u64],
        assets: &[u8],
        text: &[u8],
        reply: &mut [u64],
    ) -> (u64, u64) {
        self.0.request(model, names, observations, assets, text, reply)
    }

    #[inline(never)]
    fn body(&self, assets: &[u8], id: &[u8]) -> (u64, u64) {
        self.0.body(assets, id)
    }
}
