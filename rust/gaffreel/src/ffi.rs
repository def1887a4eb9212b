//! The C interface, with a slice for each pointer and length. A buffer may have any length, and the answer is the
//! library's own: 0 is done, anything else the number of a refusal, after which every buffer is as it was, but for one
//! that receives what the refusal also returns, and for what the steps of an advance changed before the refused one.
//!
//! All unsafe code of this crate stands here. It rests on two things: that the declarations below are those of the
//! library, which nothing checks, and that its functions touch nothing outside the buffers lent to them, which is proved.
#![allow(unsafe_code)]

unsafe extern "C" {
    fn gaffreel_sha256(
        message: *const u8,
        message_length: usize,
        digest: *mut u8,
        digest_length: usize,
    ) -> u32;

    fn gaffreel_sha256_new(state: *mut u8, state_length: usize) -> u32;

    fn gaffreel_sha256_update(
        state: *mut u8,
        state_length: usize,
        piece: *const u8,
        piece_length: usize,
    ) -> u32;

    fn gaffreel_sha256_finish(
        state: *const u8,
        state_length: usize,
        digest: *mut u8,
        digest_length: usize,
    ) -> u32;

    fn gaffreel_hmac_sha256(
        key: *const u8,
        key_length: usize,
        message: *const u8,
        message_length: usize,
        digest: *mut u8,
        digest_length: usize,
    ) -> u32;

    safe fn gaffreel_tree_length(count: usize) -> usize;

    fn gaffreel_tree_build(
        count: usize,
        salt: *const u8,
        salt_length: usize,
        image: *const u8,
        image_length: usize,
        tree: *mut u8,
        tree_length: usize,
        root: *mut u8,
        root_length: usize,
    ) -> u32;

    fn gaffreel_tree_verify(
        block: *const u8,
        block_length: usize,
        index: usize,
        tree: *const u8,
        tree_length: usize,
        count: usize,
        salt: *const u8,
        salt_length: usize,
        root: *const u8,
        root_length: usize,
        level: *mut u8,
        level_length: usize,
    ) -> u32;

    fn gaffreel_volume_format(
        volume: *mut u8,
        volume_length: usize,
        reserved: usize,
        shift: usize,
        width: usize,
        sections: usize,
        provided: usize,
        answer: *mut u8,
        answer_length: usize,
    ) -> u32;

    fn gaffreel_volume_query(
        volume: *const u8,
        volume_length: usize,
        reserved: usize,
        layout: *mut u8,
        layout_length: usize,
        answer: *mut u8,
        answer_length: usize,
    ) -> u32;

    fn gaffreel_volume_open(
        volume: *const u8,
        volume_length: usize,
        staging: *mut u8,
        staging_length: usize,
        reserved: usize,
        state: *mut u8,
        state_length: usize,
        answer: *mut u8,
        answer_length: usize,
    ) -> u32;

    fn gaffreel_volume_write(
        state: *mut u8,
        state_length: usize,
        staging: *mut u8,
        staging_length: usize,
        sector: usize,
        bytes: *const u8,
        bytes_length: usize,
        answer: *mut u8,
        answer_length: usize,
    ) -> u32;

    fn gaffreel_volume_flush(
        state: *mut u8,
        state_length: usize,
        answer: *mut u8,
        answer_length: usize,
    ) -> u32;

    fn gaffreel_volume_step(
        state: *mut u8,
        state_length: usize,
        volume: *mut u8,
        volume_length: usize,
        staging: *mut u8,
        staging_length: usize,
        answer: *mut u8,
        answer_length: usize,
    ) -> u32;

    fn gaffreel_volume_next_store(
        state: *mut u8,
        state_length: usize,
        volume: *const u8,
        volume_length: usize,
        staging: *mut u8,
        staging_length: usize,
        bytes: *mut u8,
        bytes_length: usize,
        answer: *mut u8,
        answer_length: usize,
    ) -> u32;

    fn gaffreel_volume_advance(
        state: *mut u8,
        state_length: usize,
        volume: *mut u8,
        volume_length: usize,
        staging: *mut u8,
        staging_length: usize,
        steps: usize,
        answer: *mut u8,
        answer_length: usize,
    ) -> u32;

    fn gaffreel_volume_read(
        state: *const u8,
        state_length: usize,
        volume: *const u8,
        volume_length: usize,
        staging: *const u8,
        staging_length: usize,
        sector: usize,
        bytes: *mut u8,
        bytes_length: usize,
        answer: *mut u8,
        answer_length: usize,
    ) -> u32;

    fn gaffreel_volume_verify(
        state: *const u8,
        state_length: usize,
        volume: *const u8,
        volume_length: usize,
        first: usize,
        count: usize,
        answer: *mut u8,
        answer_length: usize,
    ) -> u32;

    fn gaffreel_volume_format_keyed(
        volume: *mut u8,
        volume_length: usize,
        reserved: usize,
        shift: usize,
        width: usize,
        sections: usize,
        provided: usize,
        key: *const u8,
        key_length: usize,
        answer: *mut u8,
        answer_length: usize,
    ) -> u32;

    fn gaffreel_volume_open_keyed(
        volume: *const u8,
        volume_length: usize,
        staging: *mut u8,
        staging_length: usize,
        reserved: usize,
        key: *const u8,
        key_length: usize,
        state: *mut u8,
        state_length: usize,
        answer: *mut u8,
        answer_length: usize,
    ) -> u32;

    fn gaffreel_volume_write_keyed(
        state: *mut u8,
        state_length: usize,
        staging: *mut u8,
        staging_length: usize,
        sector: usize,
        bytes: *const u8,
        bytes_length: usize,
        key: *const u8,
        key_length: usize,
        answer: *mut u8,
        answer_length: usize,
    ) -> u32;

    fn gaffreel_volume_read_keyed(
        state: *const u8,
        state_length: usize,
        volume: *const u8,
        volume_length: usize,
        staging: *const u8,
        staging_length: usize,
        sector: usize,
        bytes: *mut u8,
        bytes_length: usize,
        key: *const u8,
        key_length: usize,
        answer: *mut u8,
        answer_length: usize,
    ) -> u32;

    fn gaffreel_volume_verify_keyed(
        state: *const u8,
        state_length: usize,
        volume: *const u8,
        volume_length: usize,
        first: usize,
        count: usize,
        key: *const u8,
        key_length: usize,
        answer: *mut u8,
        answer_length: usize,
    ) -> u32;
}

/// The digest of a whole message.
pub fn sha256(message: &[u8], digest: &mut [u8]) -> u32 {
    // SAFETY: each pointer and length are those of one slice, borrowed for the call, and `digest` overlaps nothing.
    unsafe {
        gaffreel_sha256(
            message.as_ptr(),
            message.len(),
            digest.as_mut_ptr(),
            digest.len(),
        )
    }
}

/// The state before the first piece.
pub fn sha256_new(state: &mut [u8]) -> u32 {
    // SAFETY: pointer and length are those of one slice, borrowed for the call.
    unsafe { gaffreel_sha256_new(state.as_mut_ptr(), state.len()) }
}

/// Takes the next piece.
pub fn sha256_update(state: &mut [u8], piece: &[u8]) -> u32 {
    // SAFETY: each pointer and length are those of one slice, borrowed for the call, and `state` overlaps nothing.
    unsafe { gaffreel_sha256_update(state.as_mut_ptr(), state.len(), piece.as_ptr(), piece.len()) }
}

/// The digest of the message so far.
pub fn sha256_finish(state: &[u8], digest: &mut [u8]) -> u32 {
    // SAFETY: each pointer and length are those of one slice, borrowed for the call, and `digest` overlaps nothing.
    unsafe {
        gaffreel_sha256_finish(
            state.as_ptr(),
            state.len(),
            digest.as_mut_ptr(),
            digest.len(),
        )
    }
}

/// The HMAC of a message under a key.
pub fn hmac_sha256(key: &[u8], message: &[u8], digest: &mut [u8]) -> u32 {
    // SAFETY: each pointer and length are those of one slice, borrowed for the call, and `digest` overlaps nothing.
    unsafe {
        gaffreel_hmac_sha256(
            key.as_ptr(),
            key.len(),
            message.as_ptr(),
            message.len(),
            digest.as_mut_ptr(),
            digest.len(),
        )
    }
}

/// The length of the tree over so many data blocks; 0 where there cannot be so many.
pub fn tree_length(count: usize) -> usize {
    gaffreel_tree_length(count)
}

/// The tree over an image, and its root digest.
pub fn tree_build(
    count: usize,
    salt: &[u8],
    image: &[u8],
    tree: &mut [u8],
    root: &mut [u8],
) -> u32 {
    // SAFETY: each pointer and length are those of one slice, borrowed for the call, and `tree` and `root` overlap nothing.
    unsafe {
        gaffreel_tree_build(
            count,
            salt.as_ptr(),
            salt.len(),
            image.as_ptr(),
            image.len(),
            tree.as_mut_ptr(),
            tree.len(),
            root.as_mut_ptr(),
            root.len(),
        )
    }
}

/// Whether a data block verifies. With the answer 12, `level` receives the failing level.
pub fn tree_verify(
    block: &[u8],
    index: usize,
    tree: &[u8],
    count: usize,
    salt: &[u8],
    root: &[u8],
    level: &mut [u8],
) -> u32 {
    // SAFETY: each pointer and length are those of one slice, borrowed for the call, and `level` overlaps nothing.
    unsafe {
        gaffreel_tree_verify(
            block.as_ptr(),
            block.len(),
            index,
            tree.as_ptr(),
            tree.len(),
            count,
            salt.as_ptr(),
            salt.len(),
            root.as_ptr(),
            root.len(),
            level.as_mut_ptr(),
            level.len(),
        )
    }
}

/// Makes a volume: the base-2 logarithm of the run length is `shift`, a tag's length `width`.
pub fn volume_format(
    volume: &mut [u8],
    reserved: usize,
    shift: usize,
    width: usize,
    sections: usize,
    provided: usize,
    answer: &mut [u8],
) -> u32 {
    // SAFETY: each pointer and length are those of one slice, borrowed for the call, and `volume` and `answer` overlap nothing.
    unsafe {
        gaffreel_volume_format(
            volume.as_mut_ptr(),
            volume.len(),
            reserved,
            shift,
            width,
            sections,
            provided,
            answer.as_mut_ptr(),
            answer.len(),
        )
    }
}

/// The layout that a volume's superblock holds, and the length that staging must have.
pub fn volume_query(volume: &[u8], reserved: usize, layout: &mut [u8], answer: &mut [u8]) -> u32 {
    // SAFETY: each pointer and length are those of one slice, borrowed for the call, and `layout` and `answer` overlap nothing.
    unsafe {
        gaffreel_volume_query(
            volume.as_ptr(),
            volume.len(),
            reserved,
            layout.as_mut_ptr(),
            layout.len(),
            answer.as_mut_ptr(),
            answer.len(),
        )
    }
}

/// Opens a volume.
pub fn volume_open(
    volume: &[u8],
    staging: &mut [u8],
    reserved: usize,
    state: &mut [u8],
    answer: &mut [u8],
) -> u32 {
    // SAFETY: each pointer and length are those of one slice, borrowed for the call, and `staging`, `state` and `answer`
    // overlap nothing.
    unsafe {
        gaffreel_volume_open(
            volume.as_ptr(),
            volume.len(),
            staging.as_mut_ptr(),
            staging.len(),
            reserved,
            state.as_mut_ptr(),
            state.len(),
            answer.as_mut_ptr(),
            answer.len(),
        )
    }
}

/// Adds a sector's bytes to the batch.
pub fn volume_write(
    state: &mut [u8],
    staging: &mut [u8],
    sector: usize,
    bytes: &[u8],
    answer: &mut [u8],
) -> u32 {
    // SAFETY: each pointer and length are those of one slice, borrowed for the call, and `state`, `staging` and `answer`
    // overlap nothing.
    unsafe {
        gaffreel_volume_write(
            state.as_mut_ptr(),
            state.len(),
            staging.as_mut_ptr(),
            staging.len(),
            sector,
            bytes.as_ptr(),
            bytes.len(),
            answer.as_mut_ptr(),
            answer.len(),
        )
    }
}

/// Begins to commit the batch.
pub fn volume_flush(state: &mut [u8], answer: &mut [u8]) -> u32 {
    // SAFETY: each pointer and length are those of one slice, borrowed for the call, and the two overlap nothing.
    unsafe {
        gaffreel_volume_flush(
            state.as_mut_ptr(),
            state.len(),
            answer.as_mut_ptr(),
            answer.len(),
        )
    }
}

/// Makes the store that comes next.
pub fn volume_step(
    state: &mut [u8],
    volume: &mut [u8],
    staging: &mut [u8],
    answer: &mut [u8],
) -> u32 {
    // SAFETY: each pointer and length are those of one slice, borrowed for the call, and the four overlap nothing.
    unsafe {
        gaffreel_volume_step(
            state.as_mut_ptr(),
            state.len(),
            volume.as_mut_ptr(),
            volume.len(),
            staging.as_mut_ptr(),
            staging.len(),
            answer.as_mut_ptr(),
            answer.len(),
        )
    }
}

/// The same, but the store is the caller's to make: `bytes` receives what the sector is to hold.
pub fn volume_next_store(
    state: &mut [u8],
    volume: &[u8],
    staging: &mut [u8],
    bytes: &mut [u8],
    answer: &mut [u8],
) -> u32 {
    // SAFETY: each pointer and length are those of one slice, borrowed for the call, and `state`, `staging`, `bytes` and
    // `answer` overlap nothing.
    unsafe {
        gaffreel_volume_next_store(
            state.as_mut_ptr(),
            state.len(),
            volume.as_ptr(),
            volume.len(),
            staging.as_mut_ptr(),
            staging.len(),
            bytes.as_mut_ptr(),
            bytes.len(),
            answer.as_mut_ptr(),
            answer.len(),
        )
    }
}

/// Takes so many steps, one after the other.
pub fn volume_advance(
    state: &mut [u8],
    volume: &mut [u8],
    staging: &mut [u8],
    steps: usize,
    answer: &mut [u8],
) -> u32 {
    // SAFETY: each pointer and length are those of one slice, borrowed for the call, and the four overlap nothing.
    unsafe {
        gaffreel_volume_advance(
            state.as_mut_ptr(),
            state.len(),
            volume.as_mut_ptr(),
            volume.len(),
            staging.as_mut_ptr(),
            staging.len(),
            steps,
            answer.as_mut_ptr(),
            answer.len(),
        )
    }
}

/// Copies out the newest bytes of a sector.
pub fn volume_read(
    state: &[u8],
    volume: &[u8],
    staging: &[u8],
    sector: usize,
    bytes: &mut [u8],
    answer: &mut [u8],
) -> u32 {
    // SAFETY: each pointer and length are those of one slice, borrowed for the call, and `bytes` and `answer` overlap nothing.
    unsafe {
        gaffreel_volume_read(
            state.as_ptr(),
            state.len(),
            volume.as_ptr(),
            volume.len(),
            staging.as_ptr(),
            staging.len(),
            sector,
            bytes.as_mut_ptr(),
            bytes.len(),
            answer.as_mut_ptr(),
            answer.len(),
        )
    }
}

/// Tests the tags of many sectors.
pub fn volume_verify(
    state: &[u8],
    volume: &[u8],
    first: usize,
    count: usize,
    answer: &mut [u8],
) -> u32 {
    // SAFETY: each pointer and length are those of one slice, borrowed for the call, and `answer` overlaps nothing.
    unsafe {
        gaffreel_volume_verify(
            state.as_ptr(),
            state.len(),
            volume.as_ptr(),
            volume.len(),
            first,
            count,
            answer.as_mut_ptr(),
            answer.len(),
        )
    }
}

/// [`volume_format`] with a key.
#[allow(clippy::too_many_arguments)] // those of the C interface
pub fn volume_format_keyed(
    volume: &mut [u8],
    reserved: usize,
    shift: usize,
    width: usize,
    sections: usize,
    provided: usize,
    key: &[u8],
    answer: &mut [u8],
) -> u32 {
    // SAFETY: each pointer and length are those of one slice, borrowed for the call, and `volume` and `answer` overlap nothing.
    unsafe {
        gaffreel_volume_format_keyed(
            volume.as_mut_ptr(),
            volume.len(),
            reserved,
            shift,
            width,
            sections,
            provided,
            key.as_ptr(),
            key.len(),
            answer.as_mut_ptr(),
            answer.len(),
        )
    }
}

/// [`volume_open`] with a key.
pub fn volume_open_keyed(
    volume: &[u8],
    staging: &mut [u8],
    reserved: usize,
    key: &[u8],
    state: &mut [u8],
    answer: &mut [u8],
) -> u32 {
    // SAFETY: each pointer and length are those of one slice, borrowed for the call, and `staging`, `state` and `answer`
    // overlap nothing.
    unsafe {
        gaffreel_volume_open_keyed(
            volume.as_ptr(),
            volume.len(),
            staging.as_mut_ptr(),
            staging.len(),
            reserved,
            key.as_ptr(),
            key.len(),
            state.as_mut_ptr(),
            state.len(),
            answer.as_mut_ptr(),
            answer.len(),
        )
    }
}

/// [`volume_write`] with a key.
pub fn volume_write_keyed(
    state: &mut [u8],
    staging: &mut [u8],
    sector: usize,
    bytes: &[u8],
    key: &[u8],
    answer: &mut [u8],
) -> u32 {
    // SAFETY: each pointer and length are those of one slice, borrowed for the call, and `state`, `staging` and `answer`
    // overlap nothing.
    unsafe {
        gaffreel_volume_write_keyed(
            state.as_mut_ptr(),
            state.len(),
            staging.as_mut_ptr(),
            staging.len(),
            sector,
            bytes.as_ptr(),
            bytes.len(),
            key.as_ptr(),
            key.len(),
            answer.as_mut_ptr(),
            answer.len(),
        )
    }
}

/// [`volume_read`] with a key.
pub fn volume_read_keyed(
    state: &[u8],
    volume: &[u8],
    staging: &[u8],
    sector: usize,
    bytes: &mut [u8],
    key: &[u8],
    answer: &mut [u8],
) -> u32 {
    // SAFETY: each pointer and length are those of one slice, borrowed for the call, and `bytes` and `answer` overlap nothing.
    unsafe {
        gaffreel_volume_read_keyed(
            state.as_ptr(),
            state.len(),
            volume.as_ptr(),
            volume.len(),
            staging.as_ptr(),
            staging.len(),
            sector,
            bytes.as_mut_ptr(),
            bytes.len(),
            key.as_ptr(),
            key.len(),
            answer.as_mut_ptr(),
            answer.len(),
        )
    }
}

/// [`volume_verify`] with a key.
pub fn volume_verify_keyed(
    state: &[u8],
    volume: &[u8],
    first: usize,
    count: usize,
    key: &[u8],
    answer: &mut [u8],
) -> u32 {
    // SAFETY: each pointer and length are those of one slice, borrowed for the call, and `answer` overlaps nothing.
    unsafe {
        gaffreel_volume_verify_keyed(
            state.as_ptr(),
            state.len(),
            volume.as_ptr(),
            volume.len(),
            first,
            count,
            key.as_ptr(),
            key.len(),
            answer.as_mut_ptr(),
            answer.len(),
        )
    }
}
