//! A core whose stores nobody sees: the harness's stores are kept sound, and the faulty calls work
//! on copies of their own. What tells it apart are its answers, replies and bodies alone, as for
//! a client.

use reference::{Clean, Core, Faults, Record, Stores};
use std::cell::RefCell;

pub struct Hidden {
    faulty: Stores<Faults>,
    sound: Stores<Clean>,
    stores: RefCell<(Vec<u64>, Vec<u8>)>,
}

impl Hidden {
    pub fn new(faults: Faults) -> Hidden {
        Hidden { faulty: Stores::new(faults), sound: Stores::new(Clean), stores: RefCell::default() }
    }
}

impl Core for Hidden {
    fn start(
        &self,
        model: &[u32],
        names: &[u8],
        observations: &mut [u64],
        assets: &mut [u8],
        n: u64,
        a: u64,
        b: u64,
        host: u64,
    ) -> (u64, u64) {
        let own = &mut *self.stores.borrow_mut();
        *own = (observations.to_vec(), assets.to_vec());
        Core::start(&self.sound, model, names, observations, assets, n, a, b, host);
        Core::start(&self.faulty, model, names, &mut own.0, &mut own.1, n, a, b, host)
    }

    fn observe(
        &self,
        model: &[u32],
        names: &[u8],
        observations: &mut [u64],
        item: u64,
        time: u64,
        host: u64,
        value: u64,
    ) -> u64 {
        let own = &mut *self.stores.borrow_mut();
        Core::observe(&self.sound, model, names, observations, item, time, host, value);
        Core::observe(&self.faulty, model, names, &mut own.0, item, time, host, value)
    }

    fn observe_batch(
        &self,
        model: &[u32],
        names: &[u8],
        observations: &mut [u64],
        records: &[Record],
        host: u64,
        answers: &mut [u64],
    ) -> (u64, u64) {
        let own = &mut *self.stores.borrow_mut();
        let unseen = &mut answers.to_vec();
        Core::observe_batch(&self.sound, model, names, observations, records, host, unseen);
        Core::observe_batch(&self.faulty, model, names, &mut own.0, records, host, answers)
    }

    fn read_line(
        &self,
        model: &[u32],
        names: &[u8],
        observations: &mut [u64],
        line: &[u8],
        host: u64,
    ) -> u64 {
        let own = &mut *self.stores.borrow_mut();
        Core::read_line(&self.sound, model, names, observations, line, host);
        Core::read_line(&self.faulty, model, names, &mut own.0, line, host)
    }

    fn write_line(
        &self,
        model: &[u32],
        names: &[u8],
        item: u64,
        time: u64,
        value: u64,
        text: &mut [u8],
    ) -> (u64, u64) {
        Core::write_line(&self.faulty, model, names, item, time, value, text)
    }

    fn streams(
        &self,
        model: &[u32],
        names: &[u8],
        reply: &[u64],
        n: u64,
        instance_id: u64,
        creation_time: u64,
        text: &mut [u8],
    ) -> (u64, u64) {
        Core::streams(&self.faulty, model, names, reply, n, instance_id, creation_time, text)
    }

    fn store_asset(
        &self,
        model: &[u32],
        names: &[u8],
        observations: &mut [u64],
        assets: &mut [u8],
        id: &[u8],
        body: &[u8],
        host: u64,
    ) -> u64 {
        let own = &mut *self.stores.borrow_mut();
        Core::store_asset(&self.sound, model, names, observations, assets, id, body, host);
        Core::store_asset(&self.faulty, model, names, &mut own.0, &mut own.1, id, body, host)
    }

    fn request(
        &self,
        model: &[u32],
        names: &[u8],
        _: &[u64],
        _: &[u8],
        text: &[u8],
        reply: &mut [u64],
    ) -> (u64, u64) {
        let own = &*self.stores.borrow();
        Core::request(&self.faulty, model, names, &own.0, &own.1, text, reply)
    }

    fn body(&self, _: &[u8], id: &[u8]) -> (u64, u64) {
        Core::body(&self.faulty, &self.stores.borrow().1, id)
    }
}
