//! The calls in the shapes of the C interface, so that one list of calls runs against
//! everything that offers them.

/// One observation of a delivery: three words, as they lie in the host's memory.
#[derive(Clone, Copy, PartialEq, Eq, Default, Debug)]
#[repr(C)]
pub struct Record {
    pub item: u64,
    /// 0 where the host's time is meant.
    pub time: u64,
    /// kind * 2^32 + low.
    pub value: u64,
}

/// Slices in, words out, as `mtcore.h` has them.
#[allow(clippy::too_many_arguments)]
pub trait Core {
    /// Number and count.
    fn start(
        &self,
        model: &[u32],
        names: &[u8],
        observations: &mut [u64],
        assets: &mut [u8],
        n: u64,
        a: u64,
        b: u64,
        host: u64,
    ) -> (u64, u64);

    /// The answer word. `value` is kind * 2^32 + low.
    fn observe(
        &self,
        model: &[u32],
        names: &[u8],
        observations: &mut [u64],
        item: u64,
        time: u64,
        host: u64,
        value: u64,
    ) -> u64;

    /// Number and count. The front of the buffer gets a word for each record.
    fn observe_batch(
        &self,
        model: &[u32],
        names: &[u8],
        observations: &mut [u64],
        records: &[Record],
        host: u64,
        answers: &mut [u64],
    ) -> (u64, u64);

    /// The answer word of the observe that the line stands for.
    fn read_line(&self, model: &[u32], names: &[u8], observations: &mut [u64], line: &[u8], host: u64)
        -> u64;

    /// Number and bytes. The front of the buffer gets the line.
    fn write_line(
        &self,
        model: &[u32],
        names: &[u8],
        item: u64,
        time: u64,
        value: u64,
        text: &mut [u8],
    ) -> (u64, u64);

    /// Number and bytes. The front of the buffer gets the streams document of a reply's words.
    fn streams(
        &self,
        model: &[u32],
        names: &[u8],
        reply: &[u64],
        n: u64,
        instance_id: u64,
        creation_time: u64,
        text: &mut [u8],
    ) -> (u64, u64);

    /// The answer word.
    fn store_asset(
        &self,
        model: &[u32],
        names: &[u8],
        observations: &mut [u64],
        assets: &mut [u8],
        id: &[u8],
        body: &[u8],
        host: u64,
    ) -> u64;

    /// Number and count.
    fn request(
        &self,
        model: &[u32],
        names: &[u8],
        observations: &[u64],
        assets: &[u8],
        text: &[u8],
        reply: &mut [u64],
    ) -> (u64, u64);

    /// Start and length of the body inside the asset store; length 0: refused.
    fn body(&self, assets: &[u8], id: &[u8]) -> (u64, u64);
}
