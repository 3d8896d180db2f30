//! The exports of libdukpt, as `library/c/dukpt.h` declares them. `calls` says when a call is
//! sound.
//!
//! Made of library/calls.toml by `tools/library --make`.

extern "C" {
    pub fn dukpt_version() -> u32;
    pub fn dukpt_initial_key(
        bdk: *const u8,
        bdk_size: usize,
        iksn: *const u8,
        iksn_size: usize,
        key: *mut u8,
        key_size: usize,
    ) -> u32;
    pub fn dukpt_derive(
        bdk: *const u8,
        bdk_size: usize,
        ksn: *const u8,
        ksn_size: usize,
        key: *mut u8,
        key_size: usize,
    ) -> u32;
    pub fn dukpt_derive_many(
        bdk: *const u8,
        bdk_size: usize,
        ksns: *const u8,
        ksns_size: usize,
        keys: *mut u8,
        keys_size: usize,
    ) -> u32;
    pub fn dukpt_derive_from_initial(
        initial: *const u8,
        initial_size: usize,
        ksn: *const u8,
        ksn_size: usize,
        key: *mut u8,
        key_size: usize,
    ) -> u32;
    pub fn dukpt_pin_key(
        key: *const u8,
        key_size: usize,
        variant: *mut u8,
        variant_size: usize,
    ) -> u32;
    pub fn dukpt_request_key(
        key: *const u8,
        key_size: usize,
        variant: *mut u8,
        variant_size: usize,
    ) -> u32;
    pub fn dukpt_response_key(
        key: *const u8,
        key_size: usize,
        variant: *mut u8,
        variant_size: usize,
    ) -> u32;
    pub fn dukpt_request_data_key(
        key: *const u8,
        key_size: usize,
        variant: *mut u8,
        variant_size: usize,
    ) -> u32;
    pub fn dukpt_response_data_key(
        key: *const u8,
        key_size: usize,
        variant: *mut u8,
        variant_size: usize,
    ) -> u32;
    pub fn dukpt_check_usable(ksn: *const u8, ksn_size: usize) -> u32;
    pub fn dukpt_next_number(
        ksn: *const u8,
        ksn_size: usize,
        next: *mut u8,
        next_size: usize,
    ) -> u32;
    pub fn dukpt_check_value(
        key: *const u8,
        key_size: usize,
        value: *mut u8,
        value_size: usize,
    ) -> u32;
    pub fn dukpt_cmac_check_value(
        key: *const u8,
        key_size: usize,
        value: *mut u8,
        value_size: usize,
    ) -> u32;
    pub fn dukpt_registers_load(
        initial: *const u8,
        initial_size: usize,
        iksn: *const u8,
        iksn_size: usize,
        image: *mut u8,
        image_size: usize,
    ) -> u32;
    pub fn dukpt_registers_at(
        initial: *const u8,
        initial_size: usize,
        ksn: *const u8,
        ksn_size: usize,
        image: *mut u8,
        image_size: usize,
    ) -> u32;
    pub fn dukpt_registers_number(
        image: *const u8,
        image_size: usize,
        ksn: *mut u8,
        ksn_size: usize,
    ) -> u32;
    pub fn dukpt_registers_next(
        image: *const u8,
        image_size: usize,
        next_image: *mut u8,
        next_image_size: usize,
        key: *mut u8,
        key_size: usize,
        ksn: *mut u8,
        ksn_size: usize,
    ) -> u32;
    pub fn dukpt_registers_reload(
        image: *const u8,
        image_size: usize,
        initial: *const u8,
        initial_size: usize,
        iksn: *const u8,
        iksn_size: usize,
        next_image: *mut u8,
        next_image_size: usize,
    ) -> u32;
    pub fn dukpt_tdes_encrypt(
        key: *const u8,
        key_size: usize,
        block: *mut u8,
        block_size: usize,
    ) -> u32;
    pub fn dukpt_tdes_decrypt(
        key: *const u8,
        key_size: usize,
        block: *mut u8,
        block_size: usize,
    ) -> u32;
    pub fn dukpt_cbc_encrypt(
        key: *const u8,
        key_size: usize,
        iv: *const u8,
        iv_size: usize,
        bytes: *mut u8,
        bytes_size: usize,
    ) -> u32;
    pub fn dukpt_cbc_decrypt(
        key: *const u8,
        key_size: usize,
        iv: *const u8,
        iv_size: usize,
        bytes: *mut u8,
        bytes_size: usize,
    ) -> u32;
    pub fn dukpt_cmac(
        key: *const u8,
        key_size: usize,
        message: *const u8,
        message_size: usize,
        mac: *mut u8,
        mac_size: usize,
    ) -> u32;
    pub fn dukpt_retail_mac(
        key: *const u8,
        key_size: usize,
        message: *const u8,
        message_size: usize,
        mac: *mut u8,
        mac_size: usize,
    ) -> u32;
    pub fn dukpt_pin_block(
        pin: *const u8,
        pin_size: usize,
        pan: *const u8,
        pan_size: usize,
        block: *mut u8,
        block_size: usize,
    ) -> u32;
    pub fn dukpt_pin_of_block(
        block: *const u8,
        block_size: usize,
        pan: *const u8,
        pan_size: usize,
        pin: *mut u8,
        pin_size: usize,
        pin_length: *mut u32,
    ) -> u32;
    pub fn dukpt_wrap(
        kbpk: *const u8,
        kbpk_size: usize,
        header: *const u8,
        header_size: usize,
        key: *const u8,
        key_size: usize,
        padding: *const u8,
        padding_size: usize,
        text: *mut u8,
        text_size: usize,
        text_length: *mut u32,
    ) -> u32;
    pub fn dukpt_wrap_with(
        kbpk: *const u8,
        kbpk_size: usize,
        header: *const u8,
        header_size: usize,
        optional: *const u8,
        optional_size: usize,
        key: *const u8,
        key_size: usize,
        padding: *const u8,
        padding_size: usize,
        text: *mut u8,
        text_size: usize,
        text_length: *mut u32,
    ) -> u32;
    pub fn dukpt_unwrap(
        kbpk: *const u8,
        kbpk_size: usize,
        text: *const u8,
        text_size: usize,
        header: *mut u8,
        header_size: usize,
        key: *mut u8,
        key_size: usize,
        key_length: *mut u32,
    ) -> u32;
    pub fn dukpt_unwrap_for(
        kbpk: *const u8,
        kbpk_size: usize,
        usage: *const u8,
        usage_size: usize,
        wanted: u32,
        text: *const u8,
        text_size: usize,
        key: *mut u8,
        key_size: usize,
    ) -> u32;
    pub fn dukpt_unwrap_optional(
        kbpk: *const u8,
        kbpk_size: usize,
        text: *const u8,
        text_size: usize,
        id: *const u8,
        id_size: usize,
        content: *mut u8,
        content_size: usize,
        content_length: *mut u32,
    ) -> u32;
    pub fn dukpt_payment_request(
        key: *const u8,
        key_size: usize,
        ksn: *const u8,
        ksn_size: usize,
        pan: *const u8,
        pan_size: usize,
        pin: *const u8,
        pin_size: usize,
        amount: u32,
        frame: *mut u8,
        frame_size: usize,
        frame_length: *mut u32,
    ) -> u32;
    pub fn dukpt_read_request(
        frame: *const u8,
        frame_size: usize,
        ksn: *mut u8,
        ksn_size: usize,
        pan: *mut u8,
        pan_size: usize,
        pan_length: *mut u32,
        amount: *mut u32,
        block: *mut u8,
        block_size: usize,
        mac: *mut u8,
        mac_size: usize,
    ) -> u32;
    pub fn dukpt_check_request(
        key: *const u8,
        key_size: usize,
        frame: *const u8,
        frame_size: usize,
    ) -> u32;
    pub fn dukpt_check_requests(
        bdk: *const u8,
        bdk_size: usize,
        frames: *const u8,
        frames_size: usize,
        results: *mut u8,
        results_size: usize,
    ) -> u32;
    pub fn dukpt_request_pin(
        key: *const u8,
        key_size: usize,
        frame: *const u8,
        frame_size: usize,
        pin: *mut u8,
        pin_size: usize,
        pin_length: *mut u32,
    ) -> u32;
    pub fn dukpt_request_reply(
        key: *const u8,
        key_size: usize,
        ksn: *const u8,
        ksn_size: usize,
        code: *const u8,
        code_size: usize,
        frame: *mut u8,
        frame_size: usize,
        frame_length: *mut u32,
    ) -> u32;
    pub fn dukpt_request_refusal(
        ksn: *const u8,
        ksn_size: usize,
        reason: u32,
        frame: *mut u8,
        frame_size: usize,
        frame_length: *mut u32,
    ) -> u32;
    pub fn dukpt_read_reply(
        frame: *const u8,
        frame_size: usize,
        ksn: *mut u8,
        ksn_size: usize,
        code: *mut u8,
        code_size: usize,
    ) -> u32;
    pub fn dukpt_read_refusal(
        frame: *const u8,
        frame_size: usize,
        ksn: *mut u8,
        ksn_size: usize,
        reason: *mut u32,
    ) -> u32;
    pub fn dukpt_check_reply(
        key: *const u8,
        key_size: usize,
        ksn: *const u8,
        ksn_size: usize,
        frame: *const u8,
        frame_size: usize,
    ) -> u32;
    pub fn dukpt_reversal_request(
        key: *const u8,
        key_size: usize,
        ksn: *const u8,
        ksn_size: usize,
        reversed: *const u8,
        reversed_size: usize,
        frame: *mut u8,
        frame_size: usize,
        frame_length: *mut u32,
    ) -> u32;
    pub fn dukpt_read_reversal(
        frame: *const u8,
        frame_size: usize,
        ksn: *mut u8,
        ksn_size: usize,
        reversed: *mut u8,
        reversed_size: usize,
        mac: *mut u8,
        mac_size: usize,
    ) -> u32;
    pub fn dukpt_check_reversal(
        key: *const u8,
        key_size: usize,
        frame: *const u8,
        frame_size: usize,
    ) -> u32;
    pub fn dukpt_reversal_reply(
        key: *const u8,
        key_size: usize,
        ksn: *const u8,
        ksn_size: usize,
        reversed: *const u8,
        reversed_size: usize,
        state: u32,
        frame: *mut u8,
        frame_size: usize,
        frame_length: *mut u32,
    ) -> u32;
    pub fn dukpt_read_reversal_reply(
        frame: *const u8,
        frame_size: usize,
        ksn: *mut u8,
        ksn_size: usize,
        reversed: *mut u8,
        reversed_size: usize,
        state: *mut u32,
    ) -> u32;
    pub fn dukpt_check_reversal_reply(
        key: *const u8,
        key_size: usize,
        ksn: *const u8,
        ksn_size: usize,
        reversed: *const u8,
        reversed_size: usize,
        frame: *const u8,
        frame_size: usize,
    ) -> u32;
    pub fn dukpt_module_new(
        lmk: *const u8,
        lmk_size: usize,
        image: *mut u8,
        image_size: usize,
    ) -> u32;
    pub fn dukpt_module_load_bdk(
        prefix: *const u8,
        prefix_size: usize,
        block: *const u8,
        block_size: usize,
        image: *mut u8,
        image_size: usize,
    ) -> u32;
    pub fn dukpt_module_load_zone(
        block: *const u8,
        block_size: usize,
        image: *mut u8,
        image_size: usize,
    ) -> u32;
    pub fn dukpt_host_judge(
        image: *const u8,
        image_size: usize,
        cards: *const u8,
        cards_size: usize,
        frames: *const u8,
        frames_size: usize,
        judged: *mut u8,
        judged_size: usize,
    ) -> u32;
    pub fn dukpt_host_answer(
        image: *const u8,
        image_size: usize,
        settled: *const u8,
        settled_size: usize,
        answers: *mut u8,
        answers_size: usize,
    ) -> u32;
    pub fn dukpt_frame_length(bytes: *const u8, bytes_size: usize, count: *mut u32) -> u32;
}
