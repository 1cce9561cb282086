//! Prints the types that cross and their fields, each with its size and its offset, and the greatest
//! sizes, to be compared with those of the header.
use gateway::raw::{GatewayAnswer, GatewayGraphAnswer, GatewayScene, PositionSyntax};
use gateway::{FIELD_WORDS, MAX_BYTES, MAX_FIELDS, MAX_NAME, MAX_POSITIONS, MAX_PRECISION};
use std::mem::{offset_of, size_of};

/// The size of what is found in a type.
fn size_in<T, F>(_: fn(&T) -> &F) -> usize {
    size_of::<F>()
}

macro_rules! print_layout {
    ($type:ident { $($field:ident),+ }) => {
        println!("{} {} 0", stringify!($type), size_of::<$type>());
        $(
            let name = concat!(stringify!($type), ".", stringify!($field));
            let size = size_in(|whole: &$type| &whole.$field);
            println!("{name} {size} {}", offset_of!($type, $field));
        )+
    };
}

fn main() {
    print_layout!(PositionSyntax {
        parent_dynamic,
        range_dynamic,
        position_precision,
        rotation_precision,
        parent,
        polar
    });
    print_layout!(GatewayAnswer {
        outcome,
        number,
        position,
        counted
    });
    print_layout!(GatewayGraphAnswer {
        outcome,
        number,
        position,
        counted,
        deepest
    });
    print_layout!(GatewayScene {
        answer,
        count,
        shapes
    });
    println!("MAX_BYTES {MAX_BYTES}");
    println!("MAX_FIELDS {MAX_FIELDS}");
    println!("MAX_POSITIONS {MAX_POSITIONS}");
    println!("MAX_PRECISION {MAX_PRECISION}");
    println!("MAX_NAME {MAX_NAME}");
    println!("FIELD_WORDS {FIELD_WORDS}");
}
