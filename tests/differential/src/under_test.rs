//! The core under test: the proved one through its archive, or in its absence the reference's
//! store layer.

#[cfg(feature = "archive")]
pub use archive::Archive as UnderTest;
#[cfg(not(feature = "archive"))]
pub type UnderTest = reference::Stores;

pub fn core() -> UnderTest {
    Default::default()
}

#[cfg(feature = "archive")]
mod archive {
    use mtcore::ffi;
    use reference::{Core, Record};
    use std::mem::offset_of;
    use std::slice;

    /// `libmtcore.a`, through the wrapper's calls that pass the words on unread.
    #[derive(Clone, Copy, Default, Debug)]
    pub struct Archive;

    impl Core for Archive {
        fn start(
            &self,
            model: &[u32],
            names: &[u8],
            observations: &mut [u64],
            assets: &mut [u8],
            n: u64,
            a: u64,
            b: u64,
            host: u64,
        ) -> (u64, u64) {
            let answer = ffi::start(model, names, observations, assets, n, a, b, host);
            (answer.number, answer.count)
        }

        fn observe(
            &self,
            model: &[u32],
            names: &[u8],
            observations: &mut [u64],
            item: u64,
            time: u64,
            host: u64,
            value: u64,
        ) -> u64 {
            ffi::observe(model, names, observations, item, time, host, value)
        }

        fn observe_batch(
            &self,
            model: &[u32],
            names: &[u8],
            observations: &mut [u64],
            records: &[Record],
            host: u64,
            answers: &mut [u64],
        ) -> (u64, u64) {
            // SAFETY: both records are the same three words, as asserted below. Their memory is passed
            // as it lies, since a copy would stand behind no fence.
            let records = unsafe { slice::from_raw_parts(records.as_ptr().cast(), records.len()) };
            let answer = ffi::observe_batch(model, names, observations, records, host, answers);
            (answer.number, answer.count)
        }

        fn read_line(
            &self,
            model: &[u32],
            names: &[u8],
            observations: &mut [u64],
            line: &[u8],
            host: u64,
        ) -> u64 {
            ffi::read_line(model, names, observations, line, host)
        }

        fn write_line(
            &self,
            model: &[u32],
            names: &[u8],
            item: u64,
            time: u64,
            value: u64,
            text: &mut [u8],
        ) -> (u64, u64) {
            let answer = ffi::write_line(model, names, item, time, value, text);
            (answer.number, answer.count)
        }

        fn streams(
            &self,
            model: &[u32],
            names: &[u8],
            reply: &[u64],
            n: u64,
            instance_id: u64,
            creation_time: u64,
            text: &mut [u8],
        ) -> (u64, u64) {
            let answer = ffi::streams(model, names, reply, n, instance_id, creation_time, text);
            (answer.number, answer.count)
        }

        fn store_asset(
            &self,
            model: &[u32],
            names: &[u8],
            observations: &mut [u64],
            assets: &mut [u8],
            id: &[u8],
            body: &[u8],
            host: u64,
        ) -> u64 {
            ffi::store_asset(model, names, observations, assets, id, body, host)
        }

        fn request(
            &self,
            model: &[u32],
            names: &[u8],
            observations: &[u64],
            assets: &[u8],
            text: &[u8],
            reply: &mut [u64],
        ) -> (u64, u64) {
            let answer = ffi::request(model, names, observations, assets, text, reply);
            (answer.number, answer.count)
        }

        fn body(&self, assets: &[u8], id: &[u8]) -> (u64, u64) {
            let part = ffi::body(assets, id);
            (part.start, part.length)
        }
    }

    // The wrapper's record lies in memory as the reference's does.
    const _: () = {
        assert!(size_of::<mtcore::Record>() == size_of::<Record>());
        assert!(align_of::<mtcore::Record>() == align_of::<Record>());
        assert!(offset_of!(mtcore::Record, item) == offset_of!(Record, item));
        assert!(offset_of!(mtcore::Record, time) == offset_of!(Record, time));
        assert!(offset_of!(mtcore::Record, value) == offset_of!(Record, value));
    };
}
