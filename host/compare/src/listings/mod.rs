//! The program listings of the uPD7720A Design Manual ("the manual", source document 001), run on both implementations.
//!
//! Every table gives the assembled word beside the manual's line and that line's number in our copy of 001. What the copy misread
//! without doubt (VOM for MOV, Q for @, l for 1) is put right in silence; what it lost is restored under a comment that says so.
//! Results are held against the manual's own numbers or plain arithmetic, never against what an implementation once gave.

mod appendix_2;
mod appendix_3;
mod arithmetic;
mod assembly;
mod example_a;
mod example_b;
mod example_c;
mod example_d;
mod example_e;
mod example_f;
mod line;
mod running;
mod single_words;

const LISTINGS: [fn() -> Result<String, String>; 16] = [
    single_words::op_rt,
    single_words::jp,
    single_words::ldi,
    example_a::run,
    example_b::as_published,
    example_b::without_waiting,
    example_c::sixteen_taps,
    example_c::sixty_four_taps,
    example_c::coefficients_in_ram,
    example_d::run,
    example_e::free_run,
    example_e::stopped_for_the_sixth_word,
    example_f::run,
    appendix_2::sums,
    appendix_2::three_operations,
    appendix_3::products,
];

/// Runs every listing: a sentence about each, or what was expected and found at the first step that went wrong.
pub fn run() -> Result<Vec<String>, String> {
    LISTINGS.iter().map(|listing| listing()).collect()
}
