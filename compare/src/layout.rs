//! The structs of sawhekonu.rs have the sizes and offsets of include/sawhekonu.h, which layout.c reads off, and its functions the header's
//! names, parameters and answers, which are read off both texts.
use crate::sawhekonu::*;
use std::mem::{offset_of, size_of};

extern "C" {
    static sawhekonu_layout: [usize; 57];
}

/// A struct's size, then the offset of each field.
macro_rules! layout {
    ($($name:ident { $($field:ident)* })*) => { [$(size_of::<$name>(), $(offset_of!($name, $field),)*)* 0] };
}

/// Panics where a declaration differs from the header's.
pub fn check() {
    let ours = layout! {
        Nodes { count kind form label place }
        Edges { count from to }
        End { node all block }
        Registers { count name index node }
        Commuting { count list }
        CircuitDag { nodes backs edges fronts first last first_registers last_registers commuting }
        Walk { current executed }
        Answer { refusal value }
        GraphAnswer { answer graph }
        StepAnswer { answer walk }
        PlaceAnswer { answer offset length }
        KeptNode { kind form label place }
        NodeAnswer { answer node }
    };
    // SAFETY: layout.c defines the array, and asserts its length.
    assert_eq!(ours, unsafe { sawhekonu_layout }, "sawhekonu.rs and include/sawhekonu.h declare different structs");
    let (header, here) = (prototypes(include_str!("../../include/sawhekonu.h")), declarations(include_str!("sawhekonu.rs")));
    assert_eq!(here, header, "sawhekonu.rs and include/sawhekonu.h declare different functions");
}

/// The words of a declaration, with one blank between them and none around.
fn words(text: &str) -> String {
    text.split_whitespace().collect::<Vec<_>>().join(" ")
}

/// The functions of the header, sorted: answer, name, parameters without their names.
fn prototypes(header: &str) -> Vec<String> {
    let mut code = String::new();
    for part in header.split("/*") {
        code += part.split_once("*/").map_or(part, |(_, rest)| rest);
    }
    let mut found: Vec<String> = code
        .split(|c| c == ';' || c == '{' || c == '}')
        .filter_map(|text| text.trim().strip_suffix(')')?.split_once('('))
        .filter_map(|(front, list)| {
            let line = words(front.lines().last()?);
            let (answer, name) = line.rsplit_once(' ')?;
            let kind = |p: String| p[..p.rfind([' ', '*']).unwrap() + 1].trim().to_string();
            let kinds: Vec<String> = list.split(',').map(words).filter(|p| p != "void").map(kind).collect();
            Some(format!("{answer} {name}({})", kinds.join(", ")))
        })
        .collect();
    found.sort();
    found
}

/// The functions of sawhekonu.rs in C's words, in the same form.
fn declarations(source: &str) -> Vec<String> {
    let in_c = |kind: &str| match kind.trim() {
        "usize" => "size_t".to_string(),
        "bool" => "bool".to_string(),
        "*const u8" => "const uint8_t *".to_string(),
        "*const u16" => "const uint16_t *".to_string(),
        "*mut u16" => "uint16_t *".to_string(),
        "CircuitDag" => "sawhekonu_dag".to_string(),
        name => name.chars().fold("sawhekonu".to_string(), |s, c| if c.is_uppercase() { s + "_" + &c.to_lowercase().to_string() } else { s + &c.to_string() }),
    };
    let mut found: Vec<String> = source
        .split("pub fn sawhekonu_")
        .skip(1)
        .map(|text| {
            let (front, rest) = text.split_once(')').unwrap();
            let (name, list) = front.split_once('(').unwrap();
            let answer = rest.split_once("->").unwrap().1.split(';').next().unwrap();
            let kinds: Vec<String> = list.split(',').filter_map(|p| Some(in_c(p.split_once(':')?.1))).collect();
            format!("{} sawhekonu_{name}({})", in_c(answer), kinds.join(", "))
        })
        .collect();
    found.sort();
    found
}
