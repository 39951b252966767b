//! The functions of include/trace_card.h over slices.

/// Numbers in an answer: the refusal and its details, the length or the cells, the figure,
/// the plan, and some that stay 0. Behind its details a comparison has the points apart and row and
/// column of the first.
pub const ANSWER: usize = 24;
pub const PLAN: usize = 13;

mod c {
    extern "C" {
        pub fn trace_card_write(
            samples: *const i32,
            samples_length: usize,
            rows: u64,
            cols: u64,
            levels: u64,
            curve: u64,
            step: u64,
            coefficients: *mut i32,
            coefficients_length: usize,
            values: *mut i64,
            values_length: usize,
            output: *mut u8,
            output_length: usize,
            answer: *mut u64,
            answer_length: usize,
        ) -> u64;
        pub fn trace_card_read(
            card: *const u8,
            card_length: usize,
            plan: *const u64,
            plan_length: usize,
            coefficients: *mut i32,
            coefficients_length: usize,
            values: *mut i64,
            values_length: usize,
            answer: *mut u64,
            answer_length: usize,
        ) -> u64;
        pub fn trace_card_show(
            card: *const u8,
            card_length: usize,
            coefficients: *mut i32,
            coefficients_length: usize,
            values: *mut i64,
            values_length: usize,
            answer: *mut u64,
            answer_length: usize,
        ) -> u64;
        pub fn trace_card_roll(
            card: *const u8,
            card_length: usize,
            coefficients: *mut i32,
            coefficients_length: usize,
            values: *mut i64,
            values_length: usize,
            page: *mut u8,
            page_length: usize,
            answer: *mut u64,
            answer_length: usize,
        ) -> u64;
        pub fn trace_card_compare(
            first: *const u8,
            first_length: usize,
            second: *const u8,
            second_length: usize,
            first_coefficients: *mut i32,
            first_coefficients_length: usize,
            first_values: *mut i64,
            first_values_length: usize,
            second_coefficients: *mut i32,
            second_coefficients_length: usize,
            second_values: *mut i64,
            second_values_length: usize,
            apart: *mut u8,
            apart_length: usize,
            answer: *mut u64,
            answer_length: usize,
        ) -> u64;
        pub fn trace_card_refine(
            card: *const u8,
            card_length: usize,
            plan: *const u64,
            plan_length: usize,
            layer: u64,
            coefficients: *mut i32,
            coefficients_length: usize,
            values: *mut i64,
            values_length: usize,
            answer: *mut u64,
            answer_length: usize,
        ) -> u64;
        pub fn trace_card_preview(
            card: *const u8,
            card_length: usize,
            plan: *const u64,
            plan_length: usize,
            layer: u64,
            coefficients: *const i32,
            coefficients_length: usize,
            values: *const i64,
            values_length: usize,
            next: *mut i64,
            next_length: usize,
            answer: *mut u64,
            answer_length: usize,
        ) -> u64;
        pub fn trace_card_figure(
            card: *const u8,
            card_length: usize,
            plan: *const u64,
            plan_length: usize,
            answer: *mut u64,
            answer_length: usize,
        ) -> u64;
        pub fn trace_card_plan_by_limit(
            card: *const u8,
            card_length: usize,
            limit: u64,
            answer: *mut u64,
            answer_length: usize,
        ) -> u64;
        pub fn trace_card_plan_by_cells(
            card: *const u8,
            card_length: usize,
            cells: u64,
            answer: *mut u64,
            answer_length: usize,
        ) -> u64;
    }
}

// Every pointer below comes from a slice with its own length, and the slices that a call
// may write to are borrowed for it alone.

#[allow(clippy::too_many_arguments)]
pub fn write(
    samples: &[i32],
    rows: u64,
    cols: u64,
    levels: u64,
    curve: u64,
    step: u64,
    coefficients: &mut [i32],
    values: &mut [i64],
    output: &mut [u8],
    answer: &mut [u64],
) -> u64 {
    unsafe {
        c::trace_card_write(
            samples.as_ptr(),
            samples.len(),
            rows,
            cols,
            levels,
            curve,
            step,
            coefficients.as_mut_ptr(),
            coefficients.len(),
            values.as_mut_ptr(),
            values.len(),
            output.as_mut_ptr(),
            output.len(),
            answer.as_mut_ptr(),
            answer.len(),
        )
    }
}

pub fn read(
    card: &[u8],
    plan: &[u64],
    coefficients: &mut [i32],
    values: &mut [i64],
    answer: &mut [u64],
) -> u64 {
    unsafe {
        c::trace_card_read(
            card.as_ptr(),
            card.len(),
            plan.as_ptr(),
            plan.len(),
            coefficients.as_mut_ptr(),
            coefficients.len(),
            values.as_mut_ptr(),
            values.len(),
            answer.as_mut_ptr(),
            answer.len(),
        )
    }
}

pub fn show(card: &[u8], coefficients: &mut [i32], values: &mut [i64], answer: &mut [u64]) -> u64 {
    unsafe {
        c::trace_card_show(
            card.as_ptr(),
            card.len(),
            coefficients.as_mut_ptr(),
            coefficients.len(),
            values.as_mut_ptr(),
            values.len(),
            answer.as_mut_ptr(),
            answer.len(),
        )
    }
}

pub fn roll(
    card: &[u8],
    coefficients: &mut [i32],
    values: &mut [i64],
    page: &mut [u8],
    answer: &mut [u64],
) -> u64 {
    unsafe {
        c::trace_card_roll(
            card.as_ptr(),
            card.len(),
            coefficients.as_mut_ptr(),
            coefficients.len(),
            values.as_mut_ptr(),
            values.len(),
            page.as_mut_ptr(),
            page.len(),
            answer.as_mut_ptr(),
            answer.len(),
        )
    }
}

#[allow(clippy::too_many_arguments)]
pub fn compare(
    first: &[u8],
    second: &[u8],
    first_coefficients: &mut [i32],
    first_values: &mut [i64],
    second_coefficients: &mut [i32],
    second_values: &mut [i64],
    apart: &mut [u8],
    answer: &mut [u64],
) -> u64 {
    unsafe {
        c::trace_card_compare(
            first.as_ptr(),
            first.len(),
            second.as_ptr(),
            second.len(),
            first_coefficients.as_mut_ptr(),
            first_coefficients.len(),
            first_values.as_mut_ptr(),
            first_values.len(),
            second_coefficients.as_mut_ptr(),
            second_coefficients.len(),
            second_values.as_mut_ptr(),
            second_values.len(),
            apart.as_mut_ptr(),
            apart.len(),
            answer.as_mut_ptr(),
            answer.len(),
        )
    }
}

pub fn refine(
    card: &[u8],
    plan: &[u64],
    layer: u64,
    coefficients: &mut [i32],
    values: &mut [i64],
    answer: &mut [u64],
) -> u64 {
    unsafe {
        c::trace_card_refine(
            card.as_ptr(),
            card.len(),
            plan.as_ptr(),
            plan.len(),
            layer,
            coefficients.as_mut_ptr(),
            coefficients.len(),
            values.as_mut_ptr(),
            values.len(),
            answer.as_mut_ptr(),
            answer.len(),
        )
    }
}

pub fn preview(
    card: &[u8],
    plan: &[u64],
    layer: u64,
    coefficients: &[i32],
    values: &[i64],
    next: &mut [i64],
    answer: &mut [u64],
) -> u64 {
    unsafe {
        c::trace_card_preview(
            card.as_ptr(),
            card.len(),
            plan.as_ptr(),
            plan.len(),
            layer,
            coefficients.as_ptr(),
            coefficients.len(),
            values.as_ptr(),
            values.len(),
            next.as_mut_ptr(),
            next.len(),
            answer.as_mut_ptr(),
            answer.len(),
        )
    }
}

pub fn figure(card: &[u8], plan: &[u64], answer: &mut [u64]) -> u64 {
    unsafe {
        c::trace_card_figure(
            card.as_ptr(),
            card.len(),
            plan.as_ptr(),
            plan.len(),
            answer.as_mut_ptr(),
            answer.len(),
        )
    }
}

pub fn plan_by_limit(card: &[u8], limit: u64, answer: &mut [u64]) -> u64 {
    unsafe {
        c::trace_card_plan_by_limit(
            card.as_ptr(),
            card.len(),
            limit,
            answer.as_mut_ptr(),
            answer.len(),
        )
    }
}

pub fn plan_by_cells(card: &[u8], cells: u64, answer: &mut [u64]) -> u64 {
    unsafe {
        c::trace_card_plan_by_cells(
            card.as_ptr(),
            card.len(),
            cells,
            answer.as_mut_ptr(),
            answer.len(),
        )
    }
}
