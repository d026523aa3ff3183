//! From a cell of the asset store to the tool in it.

use crate::sizes::{asset_bytes, BODY_CELL, ID_CELL, MAX_BODY, MAX_CELLS};

/// The bytes behind the head, and the number of cells, of a store whose head and length are right and
/// that has this cell in use.
fn cells_with(assets: &[u8], cell: u64) -> Option<(&[u8], usize)> {
    let (&[cells, used], rest) = assets.split_first_chunk::<2>()?;
    let (a, u) = (usize::from(cells), usize::from(used));
    let right = (1..=MAX_CELLS).contains(&a) && u <= a && assets.len() == asset_bytes(a);
    (right && cell < u64::from(used)).then_some((rest, a))
}

/// The id of the asset in a cell. The id's 32 bytes stand at byte 2 + 32 cell of the asset store, padded
/// with zeros. None where the cell is not in use or holds no id.
///
/// A cell is a place and not a name. Cells run from the oldest asset to the newest, and
/// [`store_asset`](crate::store_asset) moves the ones behind the cell that it gives up down by one. So
/// the cell of a reply, of an answer or of an asset change event means its asset only until the next
/// store: look it up under the lock under which the reply was made, or copy it. An older event's code may
/// name another tool by now; a host that shows which one it meant notes the id when the event is recorded.
///
/// ```
/// # let (model, names) = ([1, 1, 0, 131_072], mtcore::names(["SYSTEM"]).unwrap());
/// # let names = names.as_flattened();
/// # let sizes = mtcore::Sizes { places: 4, cells: 2, origin: 1 };
/// # let mut observations = [0; mtcore::observation_words(4, 1)];
/// # let mut assets = [0; mtcore::asset_bytes(2)];
/// # mtcore::start(&model, &names, &mut observations, &mut assets, sizes, 1).unwrap();
/// for (id, body) in [(b"T1", &b"drill"[..]), (b"T2", b"tap")] {
///     mtcore::store_asset(&model, &names, &mut observations, &mut assets, id, body, 9)?;
/// }
/// assert_eq!(mtcore::cell_id(&assets, 0), Some(&b"T1"[..]));
/// assert_eq!(mtcore::cell_body(&assets, 1), Some(&b"tap"[..]));
/// // T1 once more: it becomes the newest, and T2 moves down.
/// mtcore::store_asset(&model, &names, &mut observations, &mut assets, b"T1", b"drill, worn", 10)?;
/// assert_eq!(mtcore::cell_id(&assets, 0), Some(&b"T2"[..]));
/// assert_eq!(mtcore::cell_id(&assets, 2), None);
/// # Ok::<(), mtcore::Refusal>(())
/// ```
pub fn cell_id(assets: &[u8], cell: u64) -> Option<&[u8]> {
    let (rest, a) = cells_with(assets, cell)?;
    let ids = rest.get(..a.checked_mul(ID_CELL)?)?;
    let bytes = ids.chunks_exact(ID_CELL).nth(usize::try_from(cell).ok()?)?;
    bytes.split(|&byte| byte == 0).next().filter(|id| !id.is_empty())
}

/// The body of the asset in a cell. Its length stands in two bytes, the high one first, at byte
/// 2 + 32 A + 512 cell of the asset store, and the body behind them. None where the cell is not in use or
/// its length is not 1 to 510. What was said of cells at [`cell_id`] holds here too.
pub fn cell_body(assets: &[u8], cell: u64) -> Option<&[u8]> {
    let (rest, a) = cells_with(assets, cell)?;
    let bodies = rest.get(a.checked_mul(ID_CELL)?..)?;
    let bytes = bodies.chunks_exact(BODY_CELL).nth(usize::try_from(cell).ok()?)?;
    let (&[high, low], body) = bytes.split_first_chunk::<2>()?;
    let length = usize::from(u16::from_be_bytes([high, low]));
    (1..=MAX_BODY).contains(&length).then(|| body.get(..length))?
}

#[cfg(test)]
mod tests {
    use super::{cell_body, cell_id};
    use crate::asset_bytes;
    use std::vec;
    use std::vec::Vec;

    /// Two of three cells in use: `A` with a body of 2 bytes, and an id and a body of full length. The
    /// third has something in it all the same.
    fn store() -> Vec<u8> {
        let mut store = vec![0; asset_bytes(3)];
        store[..2].copy_from_slice(&[3, 2]);
        store[2] = b'A';
        store[34..66].fill(b'B');
        let bodies = 2 + 3 * 32;
        store[bodies..bodies + 4].copy_from_slice(&[0, 2, b'a', b'a']);
        store[bodies + 512..bodies + 514].copy_from_slice(&[1, 254]);
        store[bodies + 514..bodies + 1024].fill(b'b');
        store[66] = b'C';
        store[bodies + 1025] = 1;
        store
    }

    #[test]
    fn ids_and_bodies_of_cells() {
        let store = store();
        assert_eq!(cell_id(&store, 0), Some(&b"A"[..]));
        assert_eq!(cell_id(&store, 1), Some(&[b'B'; 32][..]));
        assert_eq!(cell_body(&store, 0), Some(&b"aa"[..]));
        assert_eq!(cell_body(&store, 1), Some(&[b'b'; 510][..]));
        for cell in [2, 3, 256, u64::MAX] {
            assert_eq!((cell_id(&store, cell), cell_body(&store, cell)), (None, None));
        }
    }

    #[test]
    fn damaged_stores_have_no_cells() {
        let good = store();
        let heads = [[0, 0], [2, 2], [4, 2], [3, 4], [129, 2], [255, 255]];
        for head in heads {
            let mut store = good.clone();
            store[..2].copy_from_slice(&head);
            assert_eq!((cell_id(&store, 0), cell_body(&store, 0)), (None, None), "{head:?}");
        }
        for length in [0, 1, 2, good.len() - 1] {
            assert_eq!((cell_id(&good[..length], 0), cell_body(&good[..length], 0)), (None, None));
        }
        let mut store = good.clone();
        store[2] = 0;
        assert_eq!(cell_id(&store, 0), None);
        for length in [[0, 0], [1, 255], [255, 255]] {
            store[98..100].copy_from_slice(&length);
            assert_eq!(cell_body(&store, 0), None, "{length:?}");
        }
    }
}
