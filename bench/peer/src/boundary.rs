//! The archive's functions: a slice is a pointer, then a length.

extern "C" {
    fn pd_hash(s: *const u8, n: usize, high: *mut u64) -> u64;
    fn pd_hash_joined(key: *const u8, k: usize, value: *const u8, v: usize, high: *mut u64) -> u64;
    fn pd_append(
        row: *mut [u64; 11],
        buf: *mut u8,
        n: usize,
        key: *const u8,
        k: usize,
        seqno: u64,
        value: *const u8,
        v: usize,
    ) -> u64;
    fn pd_step(file: *const u8, n: usize, at: usize, out: *mut [u64; 8]) -> u64;
    fn pd_read(
        file: *const u8,
        n: usize,
        key: *const u8,
        k: usize,
        offset: u64,
        size: u32,
        out: *mut [u64; 2],
    ) -> u64;
    fn pd_rows(
        count: usize,
        starts: *const [u64; 16],
        lengths: *const [u64; 16],
        files: *const [u64; 16],
        ats: *mut [u64; 16],
        image: *const u8,
        n: usize,
        rows: *mut u64,
        r: usize,
    ) -> u64;
    fn pd_drop(
        count: *mut usize,
        ids: *mut [u64; 64],
        frames: *mut [u32; 64],
        stated: *mut [u64; 64],
        disk: *mut [u64; 64],
        file: u64,
        size: u32,
        length: u32,
    ) -> u64;
    fn pd_batch(
        count: *mut usize,
        ids: *mut [u64; 64],
        frames: *mut [u32; 64],
        stated: *mut [u64; 64],
        disk: *mut [u64; 64],
        rows: *const u64,
        r: usize,
    ) -> u64;
    fn pd_store(
        count: usize,
        ids: *const [u64; 64],
        frames: *const [u32; 64],
        stated: *const [u64; 64],
        disk: *const [u64; 64],
        buf: *mut u8,
        n: usize,
    ) -> u64;
    fn pd_load(
        s: *const u8,
        n: usize,
        count: *mut usize,
        ids: *mut [u64; 64],
        frames: *mut [u32; 64],
        stated: *mut [u64; 64],
        disk: *mut [u64; 64],
    ) -> u64;
}

pub fn hash(s: &[u8]) -> [u64; 2] {
    let mut high = 0;
    let low = unsafe { pd_hash(s.as_ptr(), s.len(), &mut high) };
    [low, high]
}

pub fn hash_joined(key: &[u8], value: &[u8]) -> [u64; 2] {
    let mut high = 0;
    let low = unsafe { pd_hash_joined(key.as_ptr(), key.len(), value.as_ptr(), value.len(), &mut high) };
    [low, high]
}

pub const NEW_WRITER: [u64; 11] = [0, 0, 0, 0, 0, u64::MAX, 0, 0, 0, 0, 0];

pub fn append(row: &mut [u64; 11], buf: &mut [u8], key: &[u8], seqno: u64, value: &[u8]) -> u64 {
    let (k, v) = (key.len(), value.len());
    unsafe { pd_append(row, buf.as_mut_ptr(), buf.len(), key.as_ptr(), k, seqno, value.as_ptr(), v) }
}

/// What `step` says at the end.
pub const END: u64 = 100;

pub fn step(file: &[u8], at: usize, out: &mut [u64; 8]) -> u64 {
    unsafe { pd_step(file.as_ptr(), file.len(), at, out) }
}

pub fn read<'a>(file: &'a [u8], key: &[u8], offset: u64, size: u32) -> &'a [u8] {
    let mut out = [0; 2];
    let said = unsafe { pd_read(file.as_ptr(), file.len(), key.as_ptr(), key.len(), offset, size, &mut out) };
    assert_eq!(said, 0, "a value");
    &file[out[0] as usize..][..out[1] as usize]
}

pub struct Table {
    pub count: usize,
    pub starts: [u64; 16],
    pub lengths: [u64; 16],
    pub files: [u64; 16],
}

/// How many rows of nine numbers were written.
pub fn rows(table: &Table, ats: &mut [u64; 16], image: &[u8], rows: &mut [u64]) -> usize {
    let said = unsafe {
        pd_rows(
            table.count,
            &table.starts,
            &table.lengths,
            &table.files,
            ats,
            image.as_ptr(),
            image.len(),
            rows.as_mut_ptr(),
            rows.len(),
        )
    };
    assert!(said <= rows.len() as u64 / 9, "rows");
    said as usize
}

pub struct Map {
    pub count: usize,
    pub ids: [u64; 64],
    pub frames: [u32; 64],
    pub stated: [u64; 64],
    pub disk: [u64; 64],
}

impl Default for Map {
    fn default() -> Self {
        Self { count: 0, ids: [0; 64], frames: [0; 64], stated: [0; 64], disk: [0; 64] }
    }
}

pub fn drop(m: &mut Map, file: u64, size: u32, stated: u32) -> u64 {
    unsafe { pd_drop(&mut m.count, &mut m.ids, &mut m.frames, &mut m.stated, &mut m.disk, file, size, stated) }
}

/// Three numbers a pointer: file, on-disk size, stated length.
pub fn batch(m: &mut Map, rows: &[u64]) -> u64 {
    unsafe { pd_batch(&mut m.count, &mut m.ids, &mut m.frames, &mut m.stated, &mut m.disk, rows.as_ptr(), rows.len()) }
}

pub fn store(m: &Map, buf: &mut [u8]) -> u64 {
    unsafe { pd_store(m.count, &m.ids, &m.frames, &m.stated, &m.disk, buf.as_mut_ptr(), buf.len()) }
}

pub fn load(s: &[u8], m: &mut Map) -> u64 {
    unsafe { pd_load(s.as_ptr(), s.len(), &mut m.count, &mut m.ids, &mut m.frames, &mut m.stated, &mut m.disk) }
}
