//! The proved library, called as the functions of c/include/matlink.h call it. An array is passed as a pointer, a slice as a
//! pointer and a count.

pub const CELLS: usize = 16;

/// Places for outstanding rows, for held rows and for the messages of a table.
const PLACES: usize = 32;

/// Words of a data message: life, number, cells.
const DATA_WORDS: usize = 2 + CELLS;

/// Words of a reply: life, first, last.
const REPLY_WORDS: usize = 3;

#[link(name = "exports", kind = "static")]
unsafe extern "C" {
    fn matlink_lent_open(
        head: *mut u16,
        mat_mark: *mut u16,
        mat_timer: *mut u16,
        mat_cell: *mut u16,
        pad_mark: *mut u16,
        pad_timer: *mut u16,
        pad_cell: *mut u16,
        data: *mut u16,
        reply: *mut u16,
        window: u32,
        data_life: u32,
        reply_life: u32,
        reply_wait: u32,
        resend_wait: u32,
    ) -> u8;

    fn matlink_lent_step(
        head: *mut u16,
        mat_mark: *mut u16,
        mat_timer: *mut u16,
        mat_cell: *mut u16,
        pad_mark: *mut u16,
        pad_timer: *mut u16,
        pad_cell: *mut u16,
        data: *mut u16,
        reply: *mut u16,
        kind: u32,
        argument: u32,
        supply: *const u16,
        supply_count: usize,
        record: *mut u16,
        record_count: usize,
        counts: *mut usize,
    ) -> u8;

    fn matlink_page(
        record: *const u16,
        record_count: usize,
        page: u64,
        buffer: *mut u8,
        buffer_count: usize,
        count: *mut u64,
    ) -> u8;
}

/// Bytes of the longest page, 60 lines of 23.
const PAGE_BYTES: usize = 60 * 23;

/// A page of a record, or the number of the refusal.
pub fn page(record: &[u16], page: u64) -> Result<String, u8> {
    let mut buffer = [0; PAGE_BYTES];
    let mut count = 0;
    // SAFETY: record and buffer are slices with their own counts, and nothing overlaps.
    let answer =
        unsafe { matlink_page(record.as_ptr(), record.len(), page, buffer.as_mut_ptr(), buffer.len(), &mut count) };
    if answer == 0 {
        Ok(String::from_utf8_lossy(&buffer[..count as usize]).into_owned())
    } else {
        Err(answer)
    }
}

/// The messages of one table: how many were put in the air, arrived, were lost, and were dropped by age.
#[derive(Clone, Copy, Default, PartialEq)]
pub struct Account {
    pub put: usize,
    pub arrived: usize,
    pub lost: usize,
    pub dropped: usize,
}

/// Numbers of `struct matlink_counts`.
const COUNTS: usize = 11;

/// The counts of rows sent, acknowledged and recorded, and the accounts of data messages and replies.
#[derive(Clone, Copy, Default)]
pub struct Counts {
    pub rows: [usize; 3],
    pub data: Account,
    pub replies: Account,
}

impl Counts {
    fn of(numbers: [usize; COUNTS]) -> Counts {
        let [sent, acknowledged, recorded, data @ .., put, arrived, lost, dropped] = numbers;
        let replies = Account { put, arrived, lost, dropped };
        let [put, arrived, lost, dropped] = data;
        Counts { rows: [sent, acknowledged, recorded], data: Account { put, arrived, lost, dropped }, replies }
    }

    pub fn add(&mut self, more: Counts) {
        for (count, more) in self.rows.iter_mut().zip(more.rows) {
            *count += more;
        }
        self.data.add(more.data);
        self.replies.add(more.replies);
    }
}

impl Account {
    fn add(&mut self, more: Account) {
        self.put += more.put;
        self.arrived += more.arrived;
        self.lost += more.lost;
        self.dropped += more.dropped;
    }
}

/// The members of `struct matlink`. The single numbers stand in `head`, in their order.
#[derive(Clone)]
pub struct Link {
    head: [u16; 10],
    mat_mark: [u16; PLACES],
    mat_timer: [u16; PLACES],
    mat_cell: [u16; PLACES * CELLS],
    pad_mark: [u16; PLACES],
    pad_timer: [u16; PLACES],
    pad_cell: [u16; PLACES * CELLS],
    data: [u16; PLACES * DATA_WORDS],
    reply: [u16; PLACES * REPLY_WORDS],
}

impl Link {
    /// The link with these limits, or the number of the refusal.
    pub fn open(limits: [u16; 5]) -> Result<Link, u8> {
        let mut link = Link {
            head: [0; _],
            mat_mark: [0; _],
            mat_timer: [0; _],
            mat_cell: [0; _],
            pad_mark: [0; _],
            pad_timer: [0; _],
            pad_cell: [0; _],
            data: [0; _],
            reply: [0; _],
        };
        let [window, data_life, reply_life, reply_wait, resend_wait] = limits.map(u32::from);
        // SAFETY: the arrays are as long as the header asks, and none overlaps another.
        let answer = unsafe {
            matlink_lent_open(
                link.head.as_mut_ptr(),
                link.mat_mark.as_mut_ptr(),
                link.mat_timer.as_mut_ptr(),
                link.mat_cell.as_mut_ptr(),
                link.pad_mark.as_mut_ptr(),
                link.pad_timer.as_mut_ptr(),
                link.pad_cell.as_mut_ptr(),
                link.data.as_mut_ptr(),
                link.reply.as_mut_ptr(),
                window,
                data_life,
                reply_life,
                reply_wait,
                resend_wait,
            )
        };
        if answer == 0 {
            Ok(link)
        } else {
            Err(answer)
        }
    }

    /// The answer to one event, and what it adds to the counts.
    pub fn step(&mut self, kind: u8, argument: u8, supply: &[u16], record: &mut [u16]) -> (u8, Counts) {
        let mut counts = [0; COUNTS];
        // SAFETY: as in `open`; supply and record are slices with their own counts.
        let answer = unsafe {
            matlink_lent_step(
                self.head.as_mut_ptr(),
                self.mat_mark.as_mut_ptr(),
                self.mat_timer.as_mut_ptr(),
                self.mat_cell.as_mut_ptr(),
                self.pad_mark.as_mut_ptr(),
                self.pad_timer.as_mut_ptr(),
                self.pad_cell.as_mut_ptr(),
                self.data.as_mut_ptr(),
                self.reply.as_mut_ptr(),
                kind.into(),
                argument.into(),
                supply.as_ptr(),
                supply.len(),
                record.as_mut_ptr(),
                record.len(),
                counts.as_mut_ptr(),
            )
        };
        (answer, Counts::of(counts))
    }

    pub fn limits(&self) -> [u16; 5] {
        std::array::from_fn(|at| self.head[at])
    }

    pub fn window(&self) -> usize {
        self.head[0].into()
    }

    /// Oldest, next and wanted, modulo 2w.
    pub fn numbers(&self) -> [usize; 3] {
        [5, 6, 7].map(|at| self.head[at].into())
    }

    /// The data messages in the air, oldest first: life, number, cells.
    pub fn data(&self) -> Vec<&[u16]> {
        self.data.chunks(DATA_WORDS).take(self.head[8].into()).collect()
    }

    /// The replies in the air, oldest first: life, first, last.
    pub fn replies(&self) -> Vec<&[u16]> {
        self.reply.chunks(REPLY_WORDS).take(self.head[9].into()).collect()
    }

    /// The mat's place for a row: whether it is marked as acknowledged, and its resend timer.
    pub fn kept(&self, row: usize) -> (bool, u16) {
        let place = row % self.window();
        (self.mat_mark[place] != 0, self.mat_timer[place])
    }

    /// The pad's place for a row: whether a row is held there, its reply timer and its cells.
    pub fn held(&self, row: usize) -> (bool, u16, &[u16]) {
        let place = row % self.window();
        (self.pad_mark[place] != 0, self.pad_timer[place], &self.pad_cell[place * CELLS..][..CELLS])
    }
}
