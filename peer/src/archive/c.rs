//! The C interface, as the headers declare it: a slice is a pointer and a length.

type In = *const u8;
type Out = *mut u8;

extern "C" {
    pub fn gridprofile_shake128(input: In, input_len: usize, out: Out, out_len: usize);
    pub fn gridprofile_shake256(input: In, input_len: usize, out: Out, out_len: usize);
    pub fn gridprofile_pack_values(values: In, values_len: usize, packed: Out, packed_len: usize) -> u8;
    pub fn gridprofile_unpack_values(packed: In, packed_len: usize, values: Out, values_len: usize) -> u8;
    pub fn gridprofile_pack_exponents(exponents: In, exponents_len: usize, packed: Out, packed_len: usize) -> u8;
    pub fn gridprofile_unpack_exponents(packed: In, packed_len: usize, exponents: Out, exponents_len: usize) -> u8;
    pub fn gridprofile_read_line(
        table: In,
        table_len: usize,
        line: In,
        line_len: usize,
        profile: Out,
        profile_len: usize,
    ) -> u8;
    pub fn gridprofile_write_line(
        table: In,
        table_len: usize,
        profile: In,
        profile_len: usize,
        line: Out,
        line_len: usize,
        length: *mut usize,
    ) -> u8;
    pub fn gridprofile_evaluate_line(
        table: In,
        table_len: usize,
        input: In,
        input_len: usize,
        line: Out,
        line_len: usize,
        length: *mut usize,
    ) -> u8;
    pub fn gridprofile_preview(
        table: In,
        table_len: usize,
        input: In,
        input_len: usize,
        out: Out,
        out_len: usize,
        length: *mut usize,
    ) -> u8;
    pub fn gridprofile_read_table(file: In, file_len: usize, table: Out, table_len: usize) -> u8;
    pub fn gridprofile_load_table(store: Out, store_len: usize, file: In, file_len: usize) -> u8;
    pub fn gridprofile_lookup(
        store: In,
        store_len: usize,
        country: In,
        country_len: usize,
        class_letter: u32,
        hertz: u32,
        line: Out,
        line_len: usize,
        length: *mut usize,
    ) -> u8;
    pub fn gridprofile_nearest(
        store: In,
        store_len: usize,
        country: In,
        country_len: usize,
        hertz: u32,
        volts: u32,
        line: Out,
        line_len: usize,
        length: *mut usize,
    ) -> u8;
}

/// A function over an input and a lent buffer.
pub type Pair = unsafe extern "C" fn(In, usize, Out, usize) -> u8;

/// Private seed, master seed, salt, message, signature.
pub type Sign = unsafe extern "C" fn(In, usize, In, usize, In, usize, In, usize, Out, usize) -> u8;

/// Key, message, signature.
pub type Verify = unsafe extern "C" fn(In, usize, In, usize, In, usize) -> u8;

/// Key, salt, round, both commitments, first challenge, response, second challenge, reply.
pub type VerifyRound =
    unsafe extern "C" fn(In, usize, In, usize, u32, In, usize, In, usize, u32, In, usize, u32, In, usize) -> u8;

/// Table, private seed, master seed, salt, line, package, length.
pub type MakePackage =
    unsafe extern "C" fn(In, usize, In, usize, In, usize, In, usize, In, usize, Out, usize, *mut usize) -> u8;

/// Store, key, package, country, class, hertz.
pub type Load = unsafe extern "C" fn(Out, usize, In, usize, In, usize, In, usize, u32, u32) -> u8;

/// The functions whose sizes are a category's.
#[derive(Clone, Copy)]
pub struct Functions {
    pub sample_matrix: Pair,
    pub sample_exponents: Pair,
    pub sample_mask_values: Pair,
    pub sample_first_challenges: Pair,
    pub sample_second_challenge: Pair,
    pub make_key: Pair,
    pub sign: Sign,
    pub verify: Verify,
    pub verify_round: VerifyRound,
    pub make_package: MakePackage,
    pub load: Load,
}

/// Declares a category's functions by their names in C. Every category has the same arguments.
macro_rules! category {
    ($category:ident {
        pairs { $($pair:ident = $pair_name:ident,)* }
        sign = $sign:ident,
        verify = $verify:ident,
        verify_round = $verify_round:ident,
        make_package = $make_package:ident,
        load = $load:ident,
    }) => {
        extern "C" {
            $(pub fn $pair_name(input: In, input_len: usize, out: Out, out_len: usize) -> u8;)*
            pub fn $sign(
                private_seed: In,
                private_seed_len: usize,
                master_seed: In,
                master_seed_len: usize,
                salt: In,
                salt_len: usize,
                message: In,
                message_len: usize,
                signature: Out,
                signature_len: usize,
            ) -> u8;
            pub fn $verify(
                key: In,
                key_len: usize,
                message: In,
                message_len: usize,
                signature: In,
                signature_len: usize,
            ) -> u8;
            pub fn $verify_round(
                key: In,
                key_len: usize,
                salt: In,
                salt_len: usize,
                round: u32,
                commitment_0: In,
                commitment_0_len: usize,
                commitment_1: In,
                commitment_1_len: usize,
                first_challenge: u32,
                response: In,
                response_len: usize,
                second_challenge: u32,
                reply: In,
                reply_len: usize,
            ) -> u8;
            pub fn $make_package(
                table: In,
                table_len: usize,
                private_seed: In,
                private_seed_len: usize,
                master_seed: In,
                master_seed_len: usize,
                salt: In,
                salt_len: usize,
                line: In,
                line_len: usize,
                package: Out,
                package_len: usize,
                length: *mut usize,
            ) -> u8;
            pub fn $load(
                store: Out,
                store_len: usize,
                key: In,
                key_len: usize,
                package: In,
                package_len: usize,
                country: In,
                country_len: usize,
                class_letter: u32,
                hertz: u32,
            ) -> u8;
        }

        pub const $category: Functions = Functions {
            $($pair: $pair_name,)*
            sign: $sign,
            verify: $verify,
            verify_round: $verify_round,
            make_package: $make_package,
            load: $load,
        };
    };
}

category! { CATEGORY_1 {
    pairs {
        sample_matrix = gridprofile_sample_matrix,
        sample_exponents = gridprofile_sample_exponents,
        sample_mask_values = gridprofile_sample_mask_values,
        sample_first_challenges = gridprofile_sample_first_challenges,
        sample_second_challenge = gridprofile_sample_second_challenge,
        make_key = gridprofile_make_key,
    }
    sign = gridprofile_sign,
    verify = gridprofile_verify,
    verify_round = gridprofile_verify_round,
    make_package = gridprofile_make_package,
    load = gridprofile_load,
} }

category! { CATEGORY_3 {
    pairs {
        sample_matrix = gridprofile_category3_sample_matrix,
        sample_exponents = gridprofile_category3_sample_exponents,
        sample_mask_values = gridprofile_category3_sample_mask_values,
        sample_first_challenges = gridprofile_category3_sample_first_challenges,
        sample_second_challenge = gridprofile_category3_sample_second_challenge,
        make_key = gridprofile_category3_make_key,
    }
    sign = gridprofile_category3_sign,
    verify = gridprofile_category3_verify,
    verify_round = gridprofile_category3_verify_round,
    make_package = gridprofile_category3_make_package,
    load = gridprofile_category3_load,
} }

category! { CATEGORY_5 {
    pairs {
        sample_matrix = gridprofile_category5_sample_matrix,
        sample_exponents = gridprofile_category5_sample_exponents,
        sample_mask_values = gridprofile_category5_sample_mask_values,
        sample_first_challenges = gridprofile_category5_sample_first_challenges,
        sample_second_challenge = gridprofile_category5_sample_second_challenge,
        make_key = gridprofile_category5_make_key,
    }
    sign = gridprofile_category5_sign,
    verify = gridprofile_category5_verify,
    verify_round = gridprofile_category5_verify_round,
    make_package = gridprofile_category5_make_package,
    load = gridprofile_category5_load,
} }
