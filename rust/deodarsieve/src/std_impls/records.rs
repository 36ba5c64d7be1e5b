//! `Clone`, `Debug` and equality of the types that are generic over [`OutputSpec`]. Such a type has
//! a trait if its type of output description has it. The type parameter itself need not have it.

use crate::run_events_attempts::attempts::{
    ExecuteStatus,
    ExecutionDescription::{self, Failure, Flaky, Success},
    ExecutionStatuses, SetupScriptExecuteStatus,
};
use crate::run_events_attempts::child::{
    ChildExecutionOutputDescription::{self, Output, StartError},
    OutputSpec,
};
use core::fmt;

/// Implements `Debug` as a derived one, for an enum with these variants and fields. A tuple variant is
/// written last, with any name for its field. A struct is written as a variant with its own name. The
/// compiler refuses a list that lacks a variant or a field.
macro_rules! debug_by_fields {
    ($type:ty: $($variant:ident { $($field:ident),* })|+ $(; $tuple:ident($inner:ident))?) => {
        impl<S: OutputSpec> fmt::Debug for $type
        where
            S::ChildOutputDesc: fmt::Debug,
        {
            fn fmt(&self, f: &mut fmt::Formatter<'_>) -> fmt::Result {
                match self {
                    $($variant { $($field),* } => f
                        .debug_struct(stringify!($variant))
                        $(.field(stringify!($field), $field))*
                        .finish(),)+
                    $($tuple($inner) => f.debug_tuple(stringify!($tuple)).field($inner).finish(),)?
                }
            }
        }
    };
}

/// Implements `Debug`, `Clone` and equality as derived ones, for a type that is written in the same way.
macro_rules! traits_by_fields {
    ($type:ty: $($variant:ident { $($field:ident),* })|+ $(; $tuple:ident($inner:ident))?) => {
        debug_by_fields! { $type: $($variant { $($field),* })|+ $(; $tuple($inner))? }

        impl<S: OutputSpec> Clone for $type
        where
            S::ChildOutputDesc: Clone,
        {
            fn clone(&self) -> Self {
                match self {
                    $($variant { $($field),* } => $variant { $($field: $field.clone()),* },)+
                    $($tuple($inner) => $tuple($inner.clone()),)?
                }
            }
        }

        impl<S: OutputSpec> PartialEq for $type
        where
            S::ChildOutputDesc: PartialEq,
        {
            fn eq(&self, other: &Self) -> bool {
                match self {
                    $($variant { $($field),* } => {
                        let fields = ($($field),*);
                        matches!(other, $variant { $($field),* } if fields == ($($field),*))
                    })+
                    $($tuple(field) => matches!(other, $tuple($inner) if field == $inner),)?
                }
            }
        }

        impl<S: OutputSpec> Eq for $type where S::ChildOutputDesc: Eq {}
    };
}

traits_by_fields! {
    ExecuteStatus<S>: ExecuteStatus {
        retry_data, output, result, start_time, time_taken, is_slow, delay_before_start,
        error_summary, output_error_slice
    }
}

traits_by_fields! {
    SetupScriptExecuteStatus<S>: SetupScriptExecuteStatus {
        output, result, start_time, time_taken, is_slow, env_map, error_summary
    }
}

traits_by_fields! { ExecutionStatuses<S>: ExecutionStatuses { statuses, flaky_result } }

traits_by_fields! {
    ChildExecutionOutputDescription<S>: Output { result, output, errors }; StartError(error)
}

debug_by_fields! {
    ExecutionDescription<'_, S>:
    Success { single_status }
    | Flaky { last_status, prior_statuses, result }
    | Failure { first_status, last_status, retries }
}
