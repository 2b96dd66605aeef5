//! Where a run was paused.

use crate::sheet::{end_store, output_bytes, Slot, MOST_SLOTS};

/// The steps of a run, as a pause sheet has them.
type Steps = u32;

/// Where a run was paused: its output so far and its pause sheet, kept together.
/// [`carry_on`](crate::carry_on) takes it up again over the same store and
/// programme, in this process or, from its [bytes](Checkpoint::to_bytes), in a
/// later one.
///
/// Keep it where nobody else can write. That it is not refused by 19 does not
/// make it one that a run left: values, counts and labels can be altered so that
/// it is still good. What is proved of carrying on, and of isolation under rule 3
/// over several stretches, holds where every checkpoint came back as it was left,
/// from a [`start`](crate::start) on, over one store and programme.
#[derive(Debug, Clone, PartialEq, Eq)]
pub struct Checkpoint {
    pub(crate) out: Vec<u8>,
    pub(crate) pause: Box<[u8; Checkpoint::PAUSE_BYTES]>,
}

impl Checkpoint {
    /// The bytes of a pause sheet.
    pub const PAUSE_BYTES: usize = 256;
    /// The bytes of the steps so far, which a pause sheet starts with. Then come
    /// the path's length and the block's number, a byte each.
    pub const STEPS_BYTES: usize = size_of::<Steps>();
    const BLOCK: usize = Checkpoint::STEPS_BYTES + 1;

    /// Room for the checkpoint of a run over this store sheet, all zeros.
    pub(crate) fn room_for(store: &[u8]) -> Checkpoint {
        Checkpoint {
            out: vec![0; output_bytes(store)],
            pause: Box::new([0; Checkpoint::PAUSE_BYTES]),
        }
    }

    /// The steps done so far. A budget has to be above them for another step.
    pub fn steps(&self) -> u32 {
        let (steps, _) = self.pause.split_first_chunk().expect("the steps");
        Steps::from_le_bytes(*steps)
    }

    /// The number of the block whose step is next.
    pub fn block(&self) -> usize {
        self.pause[Checkpoint::BLOCK].into()
    }

    /// The slots as they are so far: their owners from the store sheet, what they
    /// hold and how often they were written from the output. None where these do
    /// not fit together.
    pub fn slots(&self, store: &[u8]) -> Option<Vec<Slot>> {
        end_store(store, &self.out)
    }

    /// The output so far.
    pub fn output(&self) -> &[u8] {
        &self.out
    }

    /// The pause sheet.
    pub fn pause_sheet(&self) -> &[u8; Checkpoint::PAUSE_BYTES] {
        &self.pause
    }

    /// The pause sheet and then the output, to be saved.
    pub fn to_bytes(&self) -> Vec<u8> {
        [self.pause.as_slice(), &self.out].concat()
    }

    /// The checkpoint that was [saved](Checkpoint::to_bytes) as these bytes, unless
    /// they are too few or too many for any store. Whether their number is right for
    /// a store (12), and whether they are good (19), the library judges when the
    /// run is carried on.
    pub fn from_bytes(bytes: &[u8]) -> Option<Checkpoint> {
        let (pause, out) = bytes.split_first_chunk()?;
        let fits = out.len().is_multiple_of(Slot::BYTES) && out.len() <= MOST_SLOTS * Slot::BYTES;
        fits.then(|| Checkpoint {
            out: out.to_vec(),
            pause: Box::new(*pause),
        })
    }
}

#[cfg(test)]
mod tests {
    use super::*;

    /// A checkpoint of a store of two slots, no two bytes of it in a row equal.
    fn checkpoint() -> Checkpoint {
        Checkpoint {
            out: (100..).take(2 * Slot::BYTES).collect(),
            pause: Box::new(std::array::from_fn(|place| place as u8)),
        }
    }

    /// "The sheet has steps so far (4 bytes), path length (1), block number (1)"
    #[test]
    fn steps_and_block_stand_where_the_documents_have_them() {
        assert_eq!(checkpoint().steps(), 0x0302_0100);
        assert_eq!(checkpoint().block(), 5);
    }

    #[test]
    fn a_checkpoint_comes_back_from_its_bytes() {
        let bytes = checkpoint().to_bytes();
        assert_eq!(bytes.len(), 256 + 2 * 13);
        assert_eq!(bytes[..256], *checkpoint().pause_sheet());
        assert_eq!(bytes[256..], *checkpoint().output());
        assert_eq!(Checkpoint::from_bytes(&bytes), Some(checkpoint()));
    }

    #[test]
    fn bytes_of_another_length_are_no_checkpoint() {
        let most = 256 + 256 * 13;
        for length in 0..most + 14 {
            let good = (256..=most).contains(&length) && (length - 256) % 13 == 0;
            let read = Checkpoint::from_bytes(&vec![0; length]);
            assert_eq!(read.is_some(), good, "{length}");
            let read = read.map(|checkpoint| checkpoint.to_bytes().len());
            assert!(read.is_none_or(|read| read == length), "{length}");
        }
    }
}
