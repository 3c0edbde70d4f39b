//! A mounted volume, with types.

use crate::answer::{ask, promised};
use crate::codes::{Access, Condition, FileKind};
use crate::refusal::Refusal;
use crate::values::{Account, Command, File, FileId, MountValue, Reply, Source};
use crate::words::{self, ACCOUNT_WORDS, ANSWER_WORDS, MOUNT_WORDS, ROW_WORDS};

/// The words of one file in a table.
pub type RowWords = [u64; ROW_WORDS];

/// To fill a table with before a mount. Any other words do as well.
pub const EMPTY_ROW: RowWords = [0; ROW_WORDS];

/// A mounted volume: what the library knows of it, in words that it is lent at each call.
///
/// `T` is a table, with a [`RowWords`] for each file of a kind: anything that lends them, such as `&mut [RowWords]`, an array or a
/// `Vec<RowWords>`. So the caller says where the tables are and how long, and none of this needs a heap.
/// [`MOST_FILES`](words::MOST_FILES) rows are always enough, which are 4.7 megabytes; as many as the disk has files of the kind do, too.
///
/// Each file may have one command outstanding, any number of files at once. Their commands end in any order: a completion names its file.
#[derive(Clone, Debug, PartialEq, Eq)]
pub struct Volume<T> {
    mount: [u64; MOUNT_WORDS],
    account: [u64; ACCOUNT_WORDS],
    cnv: T,
    seq: T,
}

impl<T: AsRef<[RowWords]> + AsMut<[RowWords]>> Volume<T> {
    /// Mounts. Writes a row for each file to the front of both tables. Refused, they are as they were; refusals are 20 to 30 and 33, 29
    /// with the lowest bad zone and what is bad of it.
    pub fn mount(source: &Source<'_>, mut cnv: T, mut seq: T) -> Result<Volume<T>, Refusal> {
        let Source { block, super_block, options, report, open_limit, active_limit } = *source;
        let (mut mount, mut account) = ([0; MOUNT_WORDS], [0; ACCOUNT_WORDS]);
        let (cnv_words, seq_words) = (words_mut(&mut cnv), words_mut(&mut seq));
        ask(|answer| {
            words::mount(
                block,
                super_block,
                options,
                report,
                open_limit,
                active_limit,
                cnv_words,
                seq_words,
                &mut mount,
                &mut account,
                answer,
            )
        })?;
        Ok(Volume { mount, account, cnv, seq })
    }

    /// A volume from words that were taken from one, by [`Volume::into_parts`] or copied. Any others are safe as well: what is
    /// impossible in them is answered with [`Refusal::Impossible`].
    pub fn from_parts(mount: [u64; MOUNT_WORDS], account: [u64; ACCOUNT_WORDS], cnv: T, seq: T) -> Volume<T> {
        Volume { mount, account, cnv, seq }
    }

    /// The mount words, the account words and both tables, cnv first. They are all there is to a volume.
    pub fn into_parts(self) -> ([u64; MOUNT_WORDS], [u64; ACCOUNT_WORDS], T, T) {
        (self.mount, self.account, self.cnv, self.seq)
    }

    /// The mount words.
    pub fn mount_words(&self) -> &[u64; MOUNT_WORDS] {
        &self.mount
    }

    /// What the mount words hold; `None` only where they came from elsewhere and hold no mount value.
    pub fn value(&self) -> Option<MountValue> {
        MountValue::from_words(&self.mount)
    }

    /// The account words.
    pub fn account_words(&self) -> &[u64; ACCOUNT_WORDS] {
        &self.account
    }

    /// How many files are open and active, and the limits; `None` only where the account words came from elsewhere and one is above 32 bits.
    pub fn account(&self) -> Option<Account> {
        Account::from_words(&self.account)
    }

    /// The table of a kind. Rows past the files are as the caller had them.
    pub fn table(&self, kind: FileKind) -> &[RowWords] {
        match kind {
            FileKind::Conventional => self.cnv.as_ref(),
            FileKind::Sequential => self.seq.as_ref(),
        }
    }

    /// Finds a name such as `seq/12`. Refusals are 1 and 10.
    pub fn find(&self, name: impl AsRef<[u8]>) -> Result<FileId, Refusal> {
        let (cnv, seq) = (words_of(&self.cnv), words_of(&self.seq));
        let answer = ask(|answer| words::find(&self.mount, &self.account, cnv, seq, name.as_ref(), answer))?;
        let kind = promised(FileKind::from_code(answer[words::ANSWER_KIND]));
        Ok(FileId { kind, number: answer[words::ANSWER_NUMBER] as u32 })
    }

    /// Shows a file. Refusals are 1 and 10.
    pub fn show(&self, file: FileId) -> Result<File, Refusal> {
        let (cnv, seq) = (words_of(&self.cnv), words_of(&self.seq));
        let (kind, number) = (file.kind_code(), file.number);
        let answer = ask(|answer| words::show(&self.mount, &self.account, cnv, seq, kind, number, answer))?;
        Ok(File {
            start: answer[words::ANSWER_START],
            capacity: answer[words::ANSWER_CAPACITY],
            size: answer[words::ANSWER_SIZE],
            condition: promised(Condition::from_code(answer[words::ANSWER_CONDITION])),
            access: promised(Access::from_code(answer[words::ANSWER_ACCESS])),
            mode: answer[words::ANSWER_MODE] as u32,
        })
    }

    /// What a file has outstanding, as a call gave it; `None` where that is nothing. Refusals are 1 and 10, as of [`Volume::show`], and 10 where
    /// what the file's row holds is no command, which only words from elsewhere can be.
    pub fn outstanding(&self, file: FileId) -> Result<Option<Command>, Refusal> {
        self.show(file)?;
        Command::of_row(&self.table(file.kind)[file.number as usize])
    }

    /// Asks to read. A read is cut at the file's size. Refusals are 1, 2, 4, 5 and 10.
    pub fn read(&mut self, file: FileId, offset: u64, length: u64) -> Result<Reply, Refusal> {
        self.call(|Lent { mount, account, cnv, seq }, answer| {
            words::read(mount, account, cnv, seq, file.kind_code(), file.number, offset, length, answer)
        })
    }

    /// Asks to write. A seq file is written at its size only, in whole blocks, and under `explicit-open` only while it is open. Refusals are 1 to 6,
    /// 10 and 13.
    pub fn write(&mut self, file: FileId, offset: u64, length: u64) -> Result<Reply, Refusal> {
        self.call(|Lent { mount, account, cnv, seq }, answer| {
            words::write(mount, account, cnv, seq, file.kind_code(), file.number, offset, length, answer)
        })
    }

    /// Asks to truncate a seq file, to 0 or to its capacity. Refusals are 1 to 4 and 10.
    pub fn truncate(&mut self, file: FileId, size: u64) -> Result<Reply, Refusal> {
        self.call(|Lent { mount, account, cnv, seq }, answer| {
            words::truncate(mount, account, cnv, seq, file.kind_code(), file.number, size, answer)
        })
    }

    /// Asks to flush. Refusals are 1 to 4 and 10.
    pub fn flush(&mut self, file: FileId) -> Result<Reply, Refusal> {
        self.call(|Lent { mount, account, cnv, seq }, answer| {
            words::flush(mount, account, cnv, seq, file.kind_code(), file.number, answer)
        })
    }

    /// Asks to open a file for writing. The file is open from then on, until it was closed as often as it was opened. Under `explicit-open` the first
    /// open of a seq file that isn't full is a command. Refusals are 1 to 4, 10, 11, 12 and 14, of a cnv file 1, 2 and 10.
    pub fn open(&mut self, file: FileId) -> Result<Reply, Refusal> {
        self.call(|Lent { mount, account, cnv, seq }, answer| {
            words::open(mount, account, cnv, seq, file.kind_code(), file.number, answer)
        })
    }

    /// Asks to close a file. Under `explicit-open` the last close of a seq file that is neither empty nor full is a command; the file isn't open any
    /// more, whatever becomes of that. Refusals are 1, 2, 10 and, of a seq file, 13.
    pub fn close(&mut self, file: FileId) -> Result<Reply, Refusal> {
        self.call(|Lent { mount, account, cnv, seq }, answer| {
            words::close(mount, account, cnv, seq, file.kind_code(), file.number, answer)
        })
    }

    /// The disk did all of the command that the file has outstanding. Gives the bytes read or written, else 0. Refusals are 1, 8 and 10.
    pub fn complete(&mut self, file: FileId) -> Result<u64, Refusal> {
        let answer = self.lend(|Lent { mount, account, cnv, seq }, answer| {
            words::complete(mount, account, cnv, seq, file.kind_code(), file.number, answer)
        })?;
        Ok(answer[words::ANSWER_COUNT])
    }

    /// The disk failed the command that the file has outstanding; a read or write that came out short counts as failed.
    ///
    /// `record` is the 64 bytes of the zone at the command's address as it is after the failure, a `struct blk_zone` of Linux as it
    /// comes, a full zone's too; `capacity_given` is the flag of the report that it came with.
    ///
    /// This is always a refusal: [`Refusal::Failed`] with the file's size now, and the file has nothing outstanding any more; or 1, 8, 9 with
    /// what is bad of the record, or 10, and nothing is changed. A failed open leaves the file no opens, and so does a failure that takes its write
    /// access. What other files have outstanding stays so, and so do their opens, also where the whole mount becomes read-only. So a driver can answer
    /// for a whole command with
    /// `if done { volume.complete(file) } else { Err(volume.fail(file, &record, true)) }`.
    #[must_use]
    pub fn fail(&mut self, file: FileId, record: &[u8], capacity_given: bool) -> Refusal {
        let (kind, number, given) = (file.kind_code(), file.number, u32::from(capacity_given));
        let failed = self.lend(|Lent { mount, account, cnv, seq }, answer| {
            words::fail(mount, account, cnv, seq, kind, number, record, given, answer)
        });
        promised(failed.err())
    }

    /// Lends a call what it takes, and reads its answer.
    fn call(&mut self, call: impl FnOnce(Lent<'_>, &mut [u64]) -> u64) -> Result<Reply, Refusal> {
        let answer = self.lend(call)?;
        Ok(match answer[words::ANSWER_VALUES] {
            words::AT_ONCE => Reply::Done(answer[words::ANSWER_COUNT]),
            _ => Reply::Command(promised(Command::from_words(
                answer[words::ANSWER_COMMAND],
                answer[words::ANSWER_ADDRESS],
                answer[words::ANSWER_LENGTH],
            ))),
        })
    }

    /// Lends a call or a completion what it takes, and gives the answer words.
    fn lend(
        &mut self,
        function: impl FnOnce(Lent<'_>, &mut [u64]) -> u64,
    ) -> Result<[u64; ANSWER_WORDS], Refusal> {
        let (cnv, seq) = (words_mut(&mut self.cnv), words_mut(&mut self.seq));
        let lent = Lent { mount: &mut self.mount, account: &mut self.account, cnv, seq };
        ask(|answer| function(lent, answer))
    }
}

/// What a call or a completion is lent beside the answer words.
struct Lent<'a> {
    mount: &'a mut [u64],
    account: &'a mut [u64],
    cnv: &'a mut [u64],
    seq: &'a mut [u64],
}

fn words_of(table: &impl AsRef<[RowWords]>) -> &[u64] {
    table.as_ref().as_flattened()
}

fn words_mut(table: &mut impl AsMut<[RowWords]>) -> &mut [u64] {
    table.as_mut().as_flattened_mut()
}
