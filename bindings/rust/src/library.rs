//! The static library's calls, and the only code here that is not checked by the compiler. Each function takes slices, so that
//! a pointer always goes with its own length, and what is written is borrowed by itself.
#![allow(unsafe_code)]

/// The fields of a task as the library takes them: `struct wenditsal_fields` of the header.
#[repr(C)]
#[derive(Clone, Copy)]
pub struct Fields {
    pub source: SourceFields,
    pub destination: DestinationFields,
    pub output: SurfaceFields,
    pub colour: u32,
    pub source_factor: u32,
    pub destination_factor: u32,
    pub blend: u32,
    pub premultiplied: u32,
}

#[repr(C)]
#[derive(Clone, Copy)]
pub struct SurfaceFields {
    pub width: u32,
    pub height: u32,
    pub stride: u32,
    pub address: u32,
    pub format: u32,
}

#[repr(C)]
#[derive(Clone, Copy)]
pub struct SourceFields {
    pub surface: SurfaceFields,
    pub alpha_mode: u32,
    pub global_alpha: u32,
    pub flip_h: u32,
    pub flip_v: u32,
    pub quarter_turns: u32,
    pub mode: u32,
    pub enable: u32,
}

#[repr(C)]
#[derive(Clone, Copy)]
pub struct DestinationFields {
    pub surface: SurfaceFields,
    pub alpha_mode: u32,
    pub global_alpha: u32,
    pub enable: u32,
}

/// `struct wenditsal_completion` of the header.
#[repr(C)]
#[derive(Clone, Copy, Default)]
pub struct CompletionFields {
    pub client: u32,
    pub ticket: u32,
    pub status: u32,
    pub fault: u32,
    pub place: u32,
}

/// `struct wenditsal_progress` of the header.
#[repr(C)]
#[derive(Clone, Copy, Default)]
pub struct ProgressFields {
    pub last: u32,
    pub value: u32,
}

extern "C" {
    fn wenditsal_set_up(engine: *mut u8, engine_size: usize, ring: usize, memory: usize, common: usize, reset: u32) -> u32;
    fn wenditsal_open(engine: *mut u8, engine_size: usize, start: u32, length: u32, client: *mut u32) -> u32;
    fn wenditsal_submit(
        engine: *mut u8,
        engine_size: usize,
        ring: *mut u8,
        ring_size: usize,
        client: u32,
        batch: *const u8,
        batch_size: usize,
        ticket: *mut u32,
    ) -> u32;
    fn wenditsal_begin(
        engine: *mut u8,
        engine_size: usize,
        ring: *const u8,
        ring_size: usize,
        client: u32,
        total: usize,
    ) -> u32;
    fn wenditsal_piece(
        engine: *mut u8,
        engine_size: usize,
        ring: *mut u8,
        ring_size: usize,
        client: u32,
        piece: *const u8,
        piece_size: usize,
        progress: *mut ProgressFields,
    ) -> u32;
    fn wenditsal_cancel(engine: *mut u8, engine_size: usize, client: u32) -> u32;
    fn wenditsal_close(engine: *mut u8, engine_size: usize, memory: *mut u8, memory_size: usize, client: u32) -> u32;
    fn wenditsal_run(
        engine: *mut u8,
        engine_size: usize,
        ring: *const u8,
        ring_size: usize,
        memory: *mut u8,
        memory_size: usize,
        completion: *mut CompletionFields,
    ) -> u32;
    fn wenditsal_pending(engine: *const u8, engine_size: usize, client: u32, count: *mut u32) -> u32;
    fn wenditsal_encode(fields: Fields, buffer: *mut u8, buffer_size: usize) -> u32;
    fn wenditsal_encode_shaded(
        fields: Fields,
        alpha: u32,
        red: u32,
        green: u32,
        blue: u32,
        buffer: *mut u8,
        buffer_size: usize,
    ) -> u32;
    fn wenditsal_encode_tint(
        score: f32,
        red: u8,
        green: u8,
        blue: u8,
        output: SurfaceFields,
        buffer: *mut u8,
        buffer_size: usize,
    ) -> u32;
    fn wenditsal_compose(first: u32, second: u32) -> u32;
    fn wenditsal_inverse(setting: u32) -> u32;
}

// In all of them: a slice's pointer is never null and good for its length, and `&mut` borrows share no byte with any other
// argument. That is all that the header asks of a caller.

pub fn set_up(engine: &mut [u8], ring: usize, memory: usize, common: usize, reset: u32) -> u32 {
    unsafe { wenditsal_set_up(engine.as_mut_ptr(), engine.len(), ring, memory, common, reset) }
}

pub fn open(engine: &mut [u8], start: u32, length: u32, client: &mut u32) -> u32 {
    unsafe { wenditsal_open(engine.as_mut_ptr(), engine.len(), start, length, client) }
}

pub fn submit(engine: &mut [u8], ring: &mut [u8], client: u32, batch: &[u8], ticket: &mut u32) -> u32 {
    unsafe {
        wenditsal_submit(
            engine.as_mut_ptr(),
            engine.len(),
            ring.as_mut_ptr(),
            ring.len(),
            client,
            batch.as_ptr(),
            batch.len(),
            ticket,
        )
    }
}

pub fn begin(engine: &mut [u8], ring: &[u8], client: u32, total: usize) -> u32 {
    unsafe { wenditsal_begin(engine.as_mut_ptr(), engine.len(), ring.as_ptr(), ring.len(), client, total) }
}

pub fn piece(engine: &mut [u8], ring: &mut [u8], client: u32, piece: &[u8], progress: &mut ProgressFields) -> u32 {
    unsafe {
        wenditsal_piece(
            engine.as_mut_ptr(),
            engine.len(),
            ring.as_mut_ptr(),
            ring.len(),
            client,
            piece.as_ptr(),
            piece.len(),
            progress,
        )
    }
}

pub fn cancel(engine: &mut [u8], client: u32) -> u32 {
    unsafe { wenditsal_cancel(engine.as_mut_ptr(), engine.len(), client) }
}

pub fn close(engine: &mut [u8], memory: &mut [u8], client: u32) -> u32 {
    unsafe { wenditsal_close(engine.as_mut_ptr(), engine.len(), memory.as_mut_ptr(), memory.len(), client) }
}

pub fn run(engine: &mut [u8], ring: &[u8], memory: &mut [u8], completion: &mut CompletionFields) -> u32 {
    unsafe {
        wenditsal_run(
            engine.as_mut_ptr(),
            engine.len(),
            ring.as_ptr(),
            ring.len(),
            memory.as_mut_ptr(),
            memory.len(),
            completion,
        )
    }
}

pub fn pending(engine: &[u8], client: u32, count: &mut u32) -> u32 {
    unsafe { wenditsal_pending(engine.as_ptr(), engine.len(), client, count) }
}

pub fn encode(fields: Fields, buffer: &mut [u8]) -> u32 {
    unsafe { wenditsal_encode(fields, buffer.as_mut_ptr(), buffer.len()) }
}

pub fn encode_shaded(fields: Fields, [alpha, red, green, blue]: [u32; 4], buffer: &mut [u8]) -> u32 {
    unsafe { wenditsal_encode_shaded(fields, alpha, red, green, blue, buffer.as_mut_ptr(), buffer.len()) }
}

pub fn encode_tint(score: f32, [red, green, blue]: [u8; 3], output: SurfaceFields, buffer: &mut [u8]) -> u32 {
    unsafe { wenditsal_encode_tint(score, red, green, blue, output, buffer.as_mut_ptr(), buffer.len()) }
}

// Numbers in, a number out.

pub fn compose(first: u32, second: u32) -> u32 {
    unsafe { wenditsal_compose(first, second) }
}

pub fn inverse(setting: u32) -> u32 {
    unsafe { wenditsal_inverse(setting) }
}
