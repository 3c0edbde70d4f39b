//! A mount whose report comes in pieces, with types.

use crate::answer::ask;
use crate::refusal::Refusal;
use crate::values::PiecesSource;
use crate::volume::{RowWords, Volume};
use crate::words::{self, ACCOUNT_WORDS, MOUNT_WORDS, PIECES_WORDS};

/// A mount in pieces, for a report that isn't in memory all at once: [`begin`](Pieces::begin), then [`piece`](Pieces::piece) for each part of the
/// report's bytes, one behind the other, then [`end`](Pieces::end), which gives the [`Volume`].
///
/// The bytes are those that [`Volume::mount`] takes as a report: one header with the count of all zones, and then the record of each. They may be cut
/// anywhere, also within a record: nothing of what comes out depends on that. A report that [`Volume::mount`] accepts gives the same volume in pieces;
/// one that it refuses is refused in pieces too, by its first fault in the order of the bytes.
///
/// This holds all there is between the pieces: the bytes of a header or of one record that isn't whole yet, one run of conventional zones that isn't
/// finished yet, a few numbers, and what the beginning has found. A copy goes on from where it was taken.
#[derive(Clone, Debug, PartialEq, Eq)]
pub struct Pieces {
    words: [u64; PIECES_WORDS],
}

impl Pieces {
    /// Begins. Refusals are 20 to 27 and 33, those of [`Volume::mount`] before the report, in its order.
    pub fn begin(source: &PiecesSource<'_>) -> Result<Pieces, Refusal> {
        let PiecesSource { block, super_block, options, open_limit, active_limit } = *source;
        let mut words = [0; PIECES_WORDS];
        ask(|answer| {
            words::begin(block, super_block, options, open_limit, active_limit, &mut words, answer)
        })?;
        Ok(Pieces { words })
    }

    /// Takes the report's next bytes, any number of them, also none. Writes the row of each file that is finished with these bytes, at its number in its
    /// table, and no other row. With every piece the same tables are lent; of those of this piece the length counts.
    ///
    /// Refusals are 28, where the header is bad (at its last byte) or a byte comes behind the last zone; 29 with a zone and what is bad of it (at the
    /// last byte of its record); and 30, where the file that a good zone begins has no row (at the last byte of that zone's record), or a run that is
    /// finished has none any more. Then the rows of the files that were finished before stay stored, all others are as they were, and every further
    /// piece and the end are refused alike. 10 comes only from words that hold no mount that was begun ([`Pieces::from_words`]).
    pub fn piece(&mut self, bytes: &[u8], cnv: &mut [RowWords], seq: &mut [RowWords]) -> Result<(), Refusal> {
        let (cnv, seq) = (cnv.as_flattened_mut(), seq.as_flattened_mut());
        ask(|answer| words::piece(&mut self.words, bytes, cnv, seq, answer))?;
        Ok(())
    }

    /// Ends: the report has no more bytes. `cnv` and `seq` are the tables that the pieces have filled; here they are only handed to the volume, and if
    /// they are others, or shorter, it answers by them.
    ///
    /// Refusals are 28, where bytes are missing, after which no piece is taken any more; what a piece was refused by; and 10 as of a piece. An end that
    /// isn't refused changes nothing: a second one gives the same volume.
    pub fn end<T>(&mut self, cnv: T, seq: T) -> Result<Volume<T>, Refusal>
    where
        T: AsRef<[RowWords]> + AsMut<[RowWords]>,
    {
        let (mut mount, mut account) = ([0; MOUNT_WORDS], [0; ACCOUNT_WORDS]);
        ask(|answer| words::end(&mut self.words, &mut mount, &mut account, answer))?;
        Ok(Volume::from_parts(mount, account, cnv, seq))
    }

    /// A mount in pieces from words that were taken from one, by [`Pieces::words`]. Any others are safe as well: where they hold no mount that was begun,
    /// pieces and the end are refused as [`Refusal::Impossible`].
    pub fn from_words(words: [u64; PIECES_WORDS]) -> Pieces {
        Pieces { words }
    }

    /// The words, which are all there is to it. What each means is the library's own.
    pub fn words(&self) -> &[u64; PIECES_WORDS] {
        &self.words
    }
}
