//! The C interface, include/whistlaurel.h, as far as it is measured.

pub const IMAGE_SIZE: usize = 415;
pub const MESSAGE_SIZE: usize = 614;
pub const ENTRY_SIZE: usize = 48;
pub const MOST_ENTRIES: usize = 300;

pub const QUIET: u8 = 0;
pub const ABSENT: u8 = 254;
pub const SENDS: u8 = 255;

const KIND_SALE: u8 = 22;

/// What the desk keys for a sale.
#[derive(Clone, Copy, Debug)]
pub struct Sale {
    pub amount: u64,
    pub card_number: u64,
    pub card_length: u8,
}

/// A terminal: the memory that the calls are lent. Each call gives the number that the library returns.
#[derive(Clone)]
pub struct Terminal {
    pub image: [u8; IMAGE_SIZE],
    pub journal: Vec<u8>,
    message: [u8; MESSAGE_SIZE],
    length: usize,
}

impl Terminal {
    pub fn fresh(entry_limit: usize, terminal: &[u8; 8], merchant: &[u8; 15]) -> Terminal {
        let mut fresh = Terminal {
            image: [0; IMAGE_SIZE],
            journal: vec![0; entry_limit * ENTRY_SIZE],
            message: [0; MESSAGE_SIZE],
            length: 0,
        };
        let image = fresh.image.as_mut_ptr();
        let made = unsafe {
            whistlaurel_fresh(image, IMAGE_SIZE, entry_limit as u32, 3, 100_000, terminal.as_ptr(), merchant.as_ptr())
        };
        assert_eq!(made, QUIET, "a fresh terminal is made");
        fresh
    }

    /// The message that the last call has written.
    pub fn sent(&self) -> &[u8] {
        &self.message[..self.length]
    }

    pub fn sign_on(&mut self) -> u8 {
        self.call(whistlaurel_sign_on)
    }

    /// A sale leaves; with a chip where its bytes are not empty.
    pub fn start(&mut self, sale: &Sale, chip: &[u8]) -> u8 {
        let (image, journal, message) = self.lent();
        let (authorisation, reference) = ([0u8; 6], [0u8; 12]);
        unsafe {
            whistlaurel_start(
                image,
                IMAGE_SIZE,
                journal,
                self.journal.len(),
                message,
                MESSAGE_SIZE,
                &mut self.length,
                KIND_SALE,
                sale.amount,
                sale.card_number,
                sale.card_length,
                0,
                0,
                0,
                authorisation.as_ptr(),
                reference.as_ptr(),
                !chip.is_empty(),
                chip.as_ptr(),
                chip.len(),
            )
        }
    }

    /// An answer whose MAC is good.
    pub fn answer(&mut self, bytes: &[u8]) -> u8 {
        let (image, journal, message) = self.lent();
        unsafe {
            whistlaurel_answer(
                image,
                IMAGE_SIZE,
                journal,
                self.journal.len(),
                message,
                MESSAGE_SIZE,
                &mut self.length,
                bytes.as_ptr(),
                bytes.len(),
                true,
            )
        }
    }

    pub fn no_answer(&mut self) -> u8 {
        self.call(whistlaurel_no_answer)
    }

    pub fn settle(&mut self) -> u8 {
        self.call(whistlaurel_settle)
    }

    pub fn send_next_upload(&mut self) -> u8 {
        self.call(whistlaurel_send_next_upload)
    }

    /// Debit amount, debit count, credit amount and credit count, as they stand in the image.
    pub fn totals(&self) -> [u64; 4] {
        let mut totals = [0; 4];
        let given = unsafe { whistlaurel_totals(self.image.as_ptr(), IMAGE_SIZE, totals.as_mut_ptr()) };
        assert_eq!(given, QUIET, "totals of a terminal");
        totals
    }

    fn call(&mut self, function: Call) -> u8 {
        let (image, journal, message) = self.lent();
        unsafe { function(image, IMAGE_SIZE, journal, self.journal.len(), message, MESSAGE_SIZE, &mut self.length) }
    }

    fn lent(&mut self) -> (*mut u8, *mut u8, *mut u8) {
        (self.image.as_mut_ptr(), self.journal.as_mut_ptr(), self.message.as_mut_ptr())
    }
}

/// The sizes of image, message and entry.
pub fn sizes() -> [usize; 3] {
    unsafe { [whistlaurel_image_size(), whistlaurel_message_size(), whistlaurel_entry_size()] }
}

pub fn read(bytes: &[u8]) -> u8 {
    unsafe { whistlaurel_read(bytes.as_ptr(), bytes.len()) }
}

/// The number returned, and the count of a field whose contents were put to the front of out.
pub fn field(bytes: &[u8], number: u8, out: &mut [u8]) -> (u8, usize) {
    let mut count = 0;
    let result = unsafe { whistlaurel_field(bytes.as_ptr(), bytes.len(), number, out.as_mut_ptr(), out.len(), &mut count) };
    (result, count)
}

/// A call that takes nothing but the terminal.
type Call = unsafe extern "C" fn(*mut u8, usize, *mut u8, usize, *mut u8, usize, *mut usize) -> u8;

extern "C" {
    fn whistlaurel_image_size() -> usize;
    fn whistlaurel_message_size() -> usize;
    fn whistlaurel_entry_size() -> usize;
    fn whistlaurel_fresh(
        image: *mut u8,
        image_size: usize,
        entry_limit: u32,
        sendings: u8,
        largest_refund: u64,
        terminal: *const u8,
        merchant: *const u8,
    ) -> u8;
    fn whistlaurel_sign_on(
        image: *mut u8,
        image_size: usize,
        journal: *mut u8,
        journal_size: usize,
        message: *mut u8,
        message_size: usize,
        length: *mut usize,
    ) -> u8;
    fn whistlaurel_start(
        image: *mut u8,
        image_size: usize,
        journal: *mut u8,
        journal_size: usize,
        message: *mut u8,
        message_size: usize,
        length: *mut usize,
        kind: u8,
        amount: u64,
        card_number: u64,
        card_length: u8,
        original: u32,
        month: u8,
        day: u8,
        authorisation: *const u8,
        reference: *const u8,
        has_chip: bool,
        chip: *const u8,
        chip_size: usize,
    ) -> u8;
    fn whistlaurel_answer(
        image: *mut u8,
        image_size: usize,
        journal: *mut u8,
        journal_size: usize,
        message: *mut u8,
        message_size: usize,
        length: *mut usize,
        bytes: *const u8,
        bytes_size: usize,
        mac_is_good: bool,
    ) -> u8;
    fn whistlaurel_no_answer(
        image: *mut u8,
        image_size: usize,
        journal: *mut u8,
        journal_size: usize,
        message: *mut u8,
        message_size: usize,
        length: *mut usize,
    ) -> u8;
    fn whistlaurel_settle(
        image: *mut u8,
        image_size: usize,
        journal: *mut u8,
        journal_size: usize,
        message: *mut u8,
        message_size: usize,
        length: *mut usize,
    ) -> u8;
    fn whistlaurel_send_next_upload(
        image: *mut u8,
        image_size: usize,
        journal: *mut u8,
        journal_size: usize,
        message: *mut u8,
        message_size: usize,
        length: *mut usize,
    ) -> u8;
    fn whistlaurel_totals(image: *const u8, image_size: usize, totals: *mut u64) -> u8;
    fn whistlaurel_read(bytes: *const u8, bytes_size: usize) -> u8;
    fn whistlaurel_field(
        bytes: *const u8,
        bytes_size: usize,
        n: u8,
        out: *mut u8,
        out_size: usize,
        count: *mut usize,
    ) -> u8;
}
