//! Units: compiled, read, their names; and code screened.

mod common;

use common::{block, head, instruction, p2, return_zero, unit};
use shurtenbo::{compile, map_name, read_unit, screen, Counts, Refusal};

#[test]
fn a_known_unit_compiles() {
    let mut code = [0xaa; 100];
    let mut relocs = [7; 4];
    let counts = compile(&p2(), &mut code, &mut relocs).unwrap();
    assert_eq!(counts, Counts { slots: 11, relocations: 1 });
    assert_eq!(code[..16], [0xbf, 0x16, 0, 0, 0, 0, 0, 0, 0x18, 0x11, 0, 0, 0, 0, 0, 0]);
    assert_eq!(code[80..88], [0x95, 0, 0, 0, 0, 0, 0, 0]);
    assert_eq!(code[88..], [0xaa; 12]);
    assert_eq!(relocs, [8, 0, 7, 7]);
}

#[test]
fn a_refused_call_changes_nothing() {
    let mut code = [0xaa; 87];
    let mut relocs = [7; 2];
    let r = compile(&p2(), &mut code, &mut relocs).unwrap_err();
    assert_eq!(r, Refusal { number: 21, place: 0, value: 88 });
    assert_eq!(code, [0xaa; 87]);
    let mut code = [0xaa; 88];
    let r = compile(&p2(), &mut code, &mut []).unwrap_err();
    assert_eq!(r, Refusal { number: 22, place: 0, value: 2 });
    assert_eq!(code, [0xaa; 88]);
}

#[test]
fn a_value_keeps_its_sign() {
    let bad = unit(0, &[&[block(1), common::terminator_return(1, i64::MIN as u64)].concat()]);
    let r = compile(&bad, &mut [0; 64], &mut []).unwrap_err();
    assert_eq!(r, Refusal { number: 12, place: 20, value: i64::MIN });
}

#[test]
fn nothing_lent() {
    assert_eq!(compile(&[], &mut [], &mut []).unwrap_err().number, 2);
    assert_eq!(screen(&[], &[], &mut []).unwrap_err().number, 30);
    assert_eq!(read_unit(&[]).unwrap_err().number, 2);
    assert_eq!(map_name(&[], 0).unwrap_err().number, 2);
}

#[test]
fn too_much_lent() {
    let long = vec![0; 262_145];
    assert_eq!(read_unit(&long).unwrap_err(), Refusal { number: 1, place: 0, value: 0 });
    let mut code = vec![0; 1 << 24];
    let mut relocs = vec![0; 1 << 22];
    assert_eq!(compile(&p2(), &mut code, &mut relocs).unwrap().slots, 11);
    assert_eq!(screen(&code, &[], &mut []).unwrap_err().number, 30);
}

#[test]
fn names_are_parts_of_the_unit() {
    let unit = p2();
    let name = map_name(&unit, 0).unwrap().unwrap();
    assert_eq!(name, b"seen");
    assert_eq!(name.as_ptr(), unit[16..].as_ptr());
    assert_eq!(map_name(&unit, 1).unwrap(), None);
    assert_eq!(map_name(&unit[..20], 0).unwrap_err().number, 2);
    assert_eq!(read_unit(&unit).unwrap(), shurtenbo::Head { maps: 1, blocks: 1 });
}

#[test]
fn ours_pass_the_screen() {
    let mut code = [0; 88];
    let mut relocs = [0; 2];
    compile(&p2(), &mut code, &mut relocs).unwrap();
    let mut table = [0xaaaa; 12];
    screen(&code, &relocs, &mut table).unwrap();
    assert_eq!(table[0], 1 << 1 | 1 << 10);
    assert_eq!(table[2], 2047);
    assert_eq!(table[11], 0xaaaa);
}

#[test]
fn the_screen_names_what_it_finds() {
    let exit = [0x95, 0, 0, 0, 0, 0, 0, 0];
    let mut table = [0; 1];
    let r = screen(&exit, &[], &mut table).unwrap_err();
    assert_eq!(r, Refusal { number: 38, place: 0, value: 0 });
    let r = screen(&exit, &[], &mut []).unwrap_err();
    assert_eq!(r, Refusal { number: 31, place: 0, value: 1 });
    let r = screen(&exit, &[5], &mut table).unwrap_err();
    assert_eq!(r, Refusal { number: 37, place: 0, value: 0 });
}

/// The largest inputs, on a stack of 128 KiB.
#[test]
fn a_small_stack_is_enough() {
    let body = instruction(10, &[(1, 1), (1, 2)]);
    let rest =
        262_144 - head(1, 1).len() - common::map(b"m").len() - block(1).len() - return_zero().len();
    let many = body.repeat(rest / body.len());
    let large = unit(1, &[&[block(1), many, return_zero()].concat()]);
    let blocks = unit(
        0,
        &(0..1024u32)
            .map(|i| [block(i), common::jump((i + 1) % 1024)].concat())
            .collect::<Vec<_>>()
            .iter()
            .map(|b| &b[..])
            .collect::<Vec<_>>(),
    );
    let mut code: Vec<u8> = [0xb7, 0, 0, 0, 0, 0, 0, 0].repeat(131_072);
    code[8 * 131_071] = 0x95;
    std::thread::Builder::new()
        .stack_size(128 * 1024)
        .spawn(move || {
            let mut bytes = vec![0; 1 << 20];
            let mut relocs = vec![0; 1 << 18];
            compile(&large, &mut bytes, &mut relocs).unwrap();
            compile(&blocks, &mut bytes, &mut relocs).unwrap();
            read_unit(&large).unwrap();
            map_name(&large, 0).unwrap().unwrap();
            let mut table = vec![0; 131_072];
            screen(&code, &[], &mut table).unwrap();
        })
        .unwrap()
        .join()
        .unwrap();
}
